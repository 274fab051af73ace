#!/usr/bin/env bash
# How long a run of `(print (+ 1 2))` takes from its start to its end, beside `sbcl --script` on the same program where that is
# installed, and in how much memory it runs. Each time is the least and the middle of 21 runs.
set -eu
top=$(cd "$(dirname "${BASH_SOURCE[0]}")/.." && pwd)
work=$(mktemp -d)
trap 'rm -rf "$work"' EXIT
printf '(print (+ 1 2))\n' >"$work/sum.lisp"
"$top/run" "$work/sum.lisp" >/dev/null
program=$top/crates/lisp_run/out/lisp_run
. "$top/tools/memory.sh"

python3 - "$program" "$work/sum.lisp" <<'PY'
import os, shutil, subprocess, sys, time
program, text = sys.argv[1:]

def measure(name, words, with_input):
    times = []
    for _ in range(21):
        with open(text if with_input else os.devnull) as given:
            start = time.perf_counter()
            child = subprocess.Popen(words, stdin=given, stdout=subprocess.DEVNULL)
            status = child.wait()
            times.append(time.perf_counter() - start)
            if status != 0:
                sys.exit(f"{name} ended with {status}")
    times.sort()
    print(f"{name}: least {times[0] * 1000:.1f} ms, middle {times[10] * 1000:.1f} ms")

measure("lisp_run", [program], True)
if shutil.which("sbcl"):
    measure("sbcl --script", ["sbcl", "--script", text], False)
else:
    print("sbcl --script: not installed here")
PY

# The peak of so short a run is hidden behind that of what starts it: the least address space in which it ends as it should.
for size in 1 2 3 4 8 16; do
    if (ulimit -v $((size * 1024)) && "$program" <"$work/sum.lisp" >/dev/null 2>&1); then
        echo "lisp_run: an address space of $size MiB is enough"
        exit 0
    fi
done
echo "lisp_run: does not run in 16 MiB" >&2
exit 1
