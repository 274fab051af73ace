#!/usr/bin/env bash
# How long lisp_run takes for texts that are made to be slow, and how much memory: of 128 KiB, 256 KiB and 1 MiB, each of one
# kind. A line has the times, how much longer the text of 1 MiB takes than that of 256 KiB (4 where the time grows with the
# length), and the peak of the longest. With a number of seconds as its argument it exits with 1 where a text of 1 MiB takes longer.
set -eu
top=$(cd "$(dirname "${BASH_SOURCE[0]}")/.." && pwd)
work=$(mktemp -d)
trap 'rm -rf "$work"' EXIT
printf '' | "$top/run" >/dev/null
program=$top/crates/lisp_run/out/lisp_run
. "$top/tools/memory.sh"

python3 - "$program" "$work" "${1-}" <<'PY'
import os, subprocess, sys, time
program, work, limit = sys.argv[1:]

def filled(front, item, back, size):
    """A text of this size, or a little less, with as many of an item as there is room for."""
    return front + item * ((size - len(front) - len(back)) // len(item)) + back

def in_loops(front, item, back):
    return lambda size: filled("(loop " * 250 + front, item, back + ")" * 250, size)

def variables(size):
    """Lets in one another that bind 64 variables each, and then reads of one that is bound round all of them."""
    names = "(let (" + "".join(f"(v{j} 1)" for j in range(64)) + ") "
    lets = min(250, size // 2 // len(names))
    return filled("(let ((v 0)) " + names * lets, "v ", ")" * lets + ")", size)

def printed(size):
    """A long string that is printed 100 times."""
    front, back = '(defvar *x* "', '") (let ((*x* *x*)) ' + "(print *x*)" * 100 + ")"
    return filled(front, "a", back, size)

KINDS = {
    "numbers": lambda size: filled("", "7 ", "", size),
    "nested lists": lambda size: filled("", "(print " * 255 + "1" + ")" * 255 + "\n", "", size),
    "quotes": lambda size: filled("", "'" * 255 + "a ", "", size),
    "strings": lambda size: filled("", '"a\\"b" ', "", size),
    "one string": lambda size: filled('"', "a", '"', size),
    "a comment": lambda size: filled(";", "a", "\n", size),
    "loops round numbers": in_loops("", "1 ", ""),
    "loops round an or": in_loops("(or ", "1 ", ")"),
    "loops round an and": in_loops("(and ", "1 ", ")"),
    "loops round dotimes": in_loops("", "(dotimes (i 1) i)", ""),
    "loops round with-mutex": in_loops("", "(with-mutex (1) 1)", ""),
    "an or": lambda size: filled("(or ", "1 ", ")", size),
    "a cond": lambda size: filled("(cond ", "(1 2)", ")", size),
    "a cond of tests": lambda size: filled("(cond ", "(1)", ")", size),
    "many variables": variables,
    "let* of 64 variables": lambda size: filled("", "(let* (" + "".join(f"(a{j} 1)" for j in range(64)) + ") a0)", "", size),
    "a sum": lambda size: filled("", "(+ " + "1 " * 64 + ")", "", size),
    "a printed string": printed,
}

def run(text):
    path = f"{work}/text"
    open(path, "w").write(text)
    with open(path) as given:
        start = time.perf_counter()
        child = subprocess.Popen([program], stdin=given, stdout=subprocess.DEVNULL)
        _, _, usage = os.wait4(child.pid, 0)
        return time.perf_counter() - start, usage.ru_maxrss / 1024

slow = []
for kind, make in KINDS.items():
    (short, _), (middle, _), (long, peak) = (run(make(size)) for size in (1 << 17, 1 << 18, 1 << 20))
    print(f"{kind}: {short:.3f} s, {middle:.3f} s, {long:.3f} s, growth {long / middle:.1f}, peak {peak:.0f} MiB", flush=True)
    if limit and long > float(limit):
        slow.append(kind)
if slow:
    sys.exit(f"longer than {limit} s: {', '.join(slow)}")
PY
