#!/usr/bin/env bash
# How long lisp_run takes to read, expand and judge long texts, and how much memory: numbers at top level, lists nested 256 deep
# again and again, mixed program text of forms that are run, and mixed text of forms of all kinds, which is judged whole and then
# refused as not built; of 100,000 and of 1,000,000 bytes. The time of the empty text is taken off. Each time is the least of 25
# runs. Where SBCL is installed, the time of its `read` for the longer text stands beside: the least of 25 times of ten readings each
# in one process, as its clock may have steps of 4 ms.
set -eu
top=$(cd "$(dirname "${BASH_SOURCE[0]}")/.." && pwd)
work=$(mktemp -d)
trap 'rm -rf "$work"' EXIT
printf '' | "$top/run" >/dev/null
program=$top/crates/lisp_run/out/lisp_run
. "$top/tools/memory.sh"

python3 - "$work" <<'PY'
import random, sys
work = sys.argv[1]
random.seed(1)

def form(depth):
    """A form of strings, numbers, symbols from a pool of 4,000, calls and bindings, nested at most so deep."""
    kind = random.random()
    if depth == 0 or kind < 0.4:
        return random.choice(["1", "-42", "1.25", f":key{random.randrange(2000)}", f"'sym{random.randrange(1900)}",
                              f'"text {random.randrange(1000)}"', f"*x{random.randrange(50)}*"])
    if kind < 0.6:
        return "(+ " + " ".join(form(depth - 1) for _ in range(random.randrange(1, 4))) + ")"
    if kind < 0.75:
        return f"(print {form(depth - 1)})"
    if kind < 0.9:
        return "(progn " + " ".join(form(depth - 1) for _ in range(random.randrange(1, 5))) + ")"
    return f"(let ((*x{random.randrange(50)}* {form(depth - 1)})) {form(depth - 1)})"

def mixed(size):
    lines = [f"(defvar *x{i}* {i}) ; one of fifty\n" for i in range(50)]
    length = sum(map(len, lines))
    while length < size:
        lines.append(form(6) + "\n")
        length += len(lines[-1])
    return "".join(lines[:-1])

def place(variables, depth):
    """A function in a function's seat."""
    return f"(lambda (p{random.randrange(200)}) {body([], depth - 1)})" if random.random() < 0.5 else f"#'work{random.randrange(40)}"

def body(variables, depth):
    return " ".join(any_form(variables, depth) for _ in range(random.randrange(1, 4)))

def any_form(variables, depth):
    """A form of any kind, with these lexical variables in scope, nested at most so deep."""
    kind = random.randrange(24)
    one = lambda: any_form(variables, depth - 1)
    v = f"v{random.randrange(1500)}"
    if depth == 0 or kind < 6:
        return random.choice(variables + ["1", "-42", "1.25", f":key{random.randrange(1000)}", f"'sym{random.randrange(1000)}",
                                          f'"text {random.randrange(1000)}"', f"*x{random.randrange(50)}*", "*current-thread*"])
    if kind == 6:
        return f"(let (({v} {one()}) (*x{random.randrange(50)}* {one()})) {body(variables + [v], depth - 1)})"
    if kind == 7:
        return f"(let* (({v} {one()})) {body(variables + [v], depth - 1)})"
    if kind == 8:
        return f"(dotimes ({v} {one()} {one()}) {body(variables + [v], depth - 1)} (when {one()} (return {one()})))"
    if kind == 9:
        return f"(cond ({one()}) ({one()} {body(variables, depth - 1)}) (t {one()}))"
    if kind == 10:
        return f"(or {one()} (and {one()} {one()}) {one()})"
    if kind == 11:
        return f"(handler-case {one()} (type-error ({v}) {body(variables + [v], depth - 1)}) (error () {one()}))"
    if kind == 12:
        return f"(with-mutex (*x1* :timeout {one()}) {body(variables, depth - 1)})"
    if kind == 13:
        return f"(without-interrupts (unwind-protect (with-local-interrupts {one()}) {body(variables, depth - 1)}))"
    if kind == 14:
        return f"(loop (unless {one()} (return)) {body(variables, depth - 1)})"
    if kind == 15:
        return f"(catch 'tag{random.randrange(40)} {body(variables, depth - 1)} (throw 'tag1 {one()}))"
    if kind == 16 and variables:
        return f"(incf {random.choice(variables)} {one()})"
    if kind == 17:
        return f"(join-thread (make-thread {place(variables, depth)} :name \"n\" :arguments {one()}) :default {one()})"
    if kind == 18:
        return f"(format t \"~a and ~s~%\" {one()} {one()})"
    if kind == 19:
        return f"(work{random.randrange(40)} {one()} {one()})"
    if kind == 20:
        return f"(if (< {one()} {one()}) {one()} {one()})"
    if kind == 21:
        return f"(block here (return-from here {one()}) {one()})"
    return f"(+ {one()} (* {one()} (max {one()} 3)))"

def whole(size):
    lines = [f"(defvar *x{i}* {i})\n" for i in range(50)] + [f"(defun work{i} (a b) (+ a b))\n" for i in range(40)]
    length = sum(map(len, lines))
    functions = 40
    while length < size:
        text = any_form([], 7) + "\n"
        if functions + text.count("(lambda") > 1024:
            continue
        functions += text.count("(lambda")
        lines.append(text)
        length += len(text)
    return "".join(lines[:-1])

nested = "(print " * 256 + "1" + ")" * 256 + "\n"
for size in (100_000, 1_000_000):
    open(f"{work}/numbers-{size}", "w").write("7 " * (size // 2))
    open(f"{work}/nested-{size}", "w").write(nested * (size // len(nested)))
    open(f"{work}/mixed-{size}", "w").write(mixed(size))
    open(f"{work}/whole-{size}", "w").write(whole(size))
open(f"{work}/empty", "w").close()
PY

# The same texts, read by SBCL's `read`, which only makes data of them.
cat >"$work/read.lisp" <<'LISP'
(let ((least nil))
  (dotimes (turn 25)
    (let ((start (get-internal-real-time)))
      (dotimes (again 10)
        (with-open-file (text (second sb-ext:*posix-argv*))
          (loop until (eq (read text nil :eof) :eof))))
      (let ((taken (- (get-internal-real-time) start)))
        (when (or (null least) (< taken least)) (setf least taken)))))
  (format t "~,1f" (/ (* 100.0 least) internal-time-units-per-second)))
LISP

python3 - "$program" "$work" <<'PY'
import os, shutil, subprocess, sys, time
program, work = sys.argv[1:]

def run(name):
    least, peak = 9.0, 0
    for _ in range(25):
        with open(f"{work}/{name}") as text:
            start = time.perf_counter()
            child = subprocess.Popen([program], stdin=text, stdout=subprocess.DEVNULL)
            _, _, usage = os.wait4(child.pid, 0)
            least = min(least, time.perf_counter() - start)
            peak = max(peak, usage.ru_maxrss)
    return least, peak

empty, _ = run("empty")
print(f"empty text: {empty * 1000:.1f} ms")
for kind in ("numbers", "nested", "mixed", "whole"):
    short, _ = run(f"{kind}-100000")
    long, peak = run(f"{kind}-1000000")
    ratio = (long - empty) / max(short - empty, 1e-9)
    read = ""
    if shutil.which("sbcl"):
        taken = subprocess.run(["sbcl", "--script", f"{work}/read.lisp", f"{work}/{kind}-1000000"], stdout=subprocess.PIPE, check=True)
        read = f", SBCL's read {taken.stdout.decode()} ms"
    print(f"{kind}: 100,000 bytes {(short - empty) * 1000:.1f} ms, 1,000,000 bytes {(long - empty) * 1000:.1f} ms, ratio {ratio:.1f}, peak {peak / 1024:.0f} MiB{read}")
PY
