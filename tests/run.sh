#!/usr/bin/env bash
# Tries ./run in some seconds: a copy of it, with a program and an rt that stand in for the real ones, so that nothing is
# built; and then, where lisp_run is built, the real program. The last line is `run.sh: N passed, M failed`.
set -u
top=$(dirname "$(dirname "$(readlink -f "${BASH_SOURCE[0]}")")")
work=$(mktemp -d)
trap 'rm -rf "$work"' EXIT
passed=0 failed=0

# Compares what was found with what is wanted, which is a pattern where it begins with ~.
compare() { # what is tried, what is wanted, what was found
    # shellcheck disable=SC2053
    if [[ $3 == "$2" || $2 == '~'* && $3 == ${2#'~'} ]]; then
        passed=$((passed + 1))
    else
        failed=$((failed + 1))
        printf 'FAILED: %s\n  wanted: %q\n  found:  %q\n' "$1" "$2" "$3"
    fi
}

# Runs a command, and compares its status, and what it writes, with what is wanted. Bytes 0 in that are not seen.
try() { # what is tried, status, standard output, standard error, the command
    local name=$1 status=$2 out=$3 err=$4
    shift 4
    "$@" >"$work/out" 2>"$work/err"
    compare "$name: status" "$status" "$?"
    compare "$name: standard output" "$out" "$(tr -d '\0' <"$work/out")"
    compare "$name: standard error" "$err" "$(tr -d '\0' <"$work/err")"
}

# The copy: four crates that are listed in no order, of which lisp_run stands on two. Nothing in it is built at first.
copy="$work/a copy"
lisp_run=$copy/crates/lisp_run/out/lisp_run
mkdir -p "$copy/tools" "$work/bin" "$work/tmp"
chmod 755 "$work"
chmod 777 "$work/tmp"
cp "$top/run" "$copy/run"
cp "$top/tools/explain.sh" "$top/tools/memory.sh" "$copy/tools/"
printf '%s\n' '# stand-ins' 'lisp_run: middle' 'others: low' 'middle: low anyhow' 'low:' >"$copy/crates.txt"
for name in lisp_run others middle low; do
    mkdir -p "$copy/crates/$name/src"
    echo '// nothing' >"$copy/crates/$name/src/lib.rt"
done

# The program that stands in: it writes its words and its text, or does what the environment says.
cat >"$work/lisp_run" <<'END'
#!/usr/bin/env bash
if [ -n "${REFUSAL-}" ]; then
    echo "refused $REFUSAL"
    exit 4
fi
if [ -n "${WAITS_FOR-}" ]; then
    echo "$$"
    for ((turn = 0; turn < 300; turn++)); do
        [ ! -e "$WAITS_FOR" ] || { echo 'it came' && exit; }
        sleep 0.1
    done
fi
printf '[%s]' "$@" && echo
cat
exit "${STATUS-0}"
END
# The rt that stands in: it notes how it is called, and builds that program, or does what the environment says.
cat >"$work/bin/rt" <<'END'
#!/usr/bin/env bash
name=${PWD##*/}
echo "$1 $name" >>"$CALLS"
[ "${FAILS-}" != "$name" ] || { printf '%s\n' 'fn low::one: proved' 'fn low::two: not proved' 'the end'; exit 1; }
[ "${WAITS-}" != "$name" ] || { echo "$$" >"$CALLS.waits" && exec sleep 60; }
[ "${EDITS-}" != "$name" ] || { sleep 0.1; echo '// edited' >>src/lib.rt; }
[ "$1" != run ] || { mkdir -p out; cp "$STANDS_IN" out/new; mv out/new out/lisp_run; }
END
chmod +x "$work/lisp_run" "$work/bin/rt"
export PATH=$work/bin:$PATH CALLS=$work/calls STANDS_IN=$work/lisp_run TMPDIR=$work/tmp
unset REFUSAL STATUS WAITS_FOR FAILS WAITS EDITS
cd "$work" || exit 1
run=$copy/run

# How rt was called since this was asked last, on one line.
calls() {
    [ ! -e "$CALLS" ] || paste -sd , "$CALLS"
    rm -f "$CALLS"
}

# The build.

try_first_build() {
    printf '1' >one.lisp
    try 'a file that is not there, before a build' 66 '' 'run: none.lisp: no such file' "$run" none.lisp
    try 'help, before a build' 0 '~usage: ./run FILE*70  lisp_run could not be built; nothing was run' '' "$run" --help
    compare 'both: nothing is built' '' "$(calls)"
    FAILS=middle try 'a first build that fails' 70 '' "~run: lisp_run is not built yet: 3 crates are proved, *
run: 0 of 3 crates proved, * s: low
run: 1 of 3 crates proved, * s: middle
run: middle was not built. What rt says of it:
fn low::two: not proved
run: the end of what rt says:
fn low::one: proved
fn low::two: not proved
the end" "$run" one.lisp
    compare 'a first build that fails: calls' 'lib low,lib middle' "$(calls)"
    try 'a first build' 0 $'[]\n1' "~run: lisp_run is not built yet: 3 crates are proved, *
run: 0 of 3 crates proved, * s: low
run: 1 of 3 crates proved, * s: middle
run: 2 of 3 crates proved, * s: lisp_run
run: 3 of 3 crates proved, * s: lisp_run is built" "$run" one.lisp
    compare 'a first build: calls' 'lib low,lib middle,run lisp_run' "$(calls)"
    try 'what is built' 0 $'[]\n1' '' "$run" one.lisp
    compare 'what is built: calls' '' "$(calls)"
}

# Builds again where a source is newer, once; what it says of the reason is handed in.
builds_again() { # what is tried, the reason
    try "$1" 0 $'[]\n1' "~run: $2 is newer than lisp_run, which is built again
run: 0 of 3 *lisp_run is built" "$run" one.lisp
    compare "$1: calls" 'lib low,lib middle,run lisp_run' "$(calls)"
    try "after $1" 0 $'[]\n1' '' "$run" one.lisp
    compare "after $1: calls" '' "$(calls)"
}

try_builds_again() {
    local low=$copy/crates/low
    touch "$low/src/lib.rt"
    builds_again 'a source that is newer' crates/low/src/lib.rt
    touch "$copy/crates/middle/src/lib.rt"
    builds_again 'a source of a crate above that is newer' crates/middle/src/lib.rt
    touch "$copy/crates/lisp_run/src/lib.rt"
    builds_again 'a source of the program that is newer' crates/lisp_run/src/lib.rt
    touch -d '+1 day' "$low/src/lib.rt"
    builds_again 'a source whose time is still to come' crates/low/src/lib.rt
    touch "$low/src/lib.rt"
    touch -d '-1 day' "$lisp_run"
    builds_again 'a program that is older' '*'
    touch "$copy/crates.txt"
    builds_again 'a list of crates that is newer' crates.txt
    mkdir "$low/specs" && touch "$low/specs/Lib.antt"
    builds_again 'a source that is new' crates/low/specs/Lib.antt
    rm "$low/specs/Lib.antt"
    builds_again 'a source that was removed' crates/low/specs
    touch "$copy/crates/others/src/lib.rt" "$low/out" "$low/notes"
    try 'what is no source of lisp_run' 0 $'[]\n1' '' "$run" one.lisp
    touch "$low/src/lib.rt"
    EDITS=low try 'a source that changes while it is built' 0 $'[]\n1' '~*is built' "$run" <one.lisp
    compare 'after a build: nothing is left aside' '' "$(ls -A "$work/tmp")"
    calls >"$work/forgotten"
    builds_again 'a source that changed while it was built' crates/low/src/lib.rt
}

try_builds_that_fail() {
    local path
    touch "$copy/crates/low/src/lib.rt"
    for name in low lisp_run; do
        FAILS=$name try "a build that fails at $name" 70 '' "~*
run: $name was not built. What rt says of it:
fn low::two: not proved
*the end" "$run" <one.lisp
        try "after a build that fails at $name: the old program" 0 $'[]\n1' '' "$lisp_run" <one.lisp
    done
    calls >"$work/forgotten"
    path=$(dirname "$(command -v env)"):$(dirname "$(command -v sed)"):$(dirname "$(command -v find)")
    if ! PATH=$path command -v rt >"$work/forgotten"; then
        PATH=$path try 'no rt' 70 '' '~*run: rt, of the Rattle kit, is not on the path, *' "$run" one.lisp
    fi
    TMPDIR=$work/none try 'no temporary folder' 70 '' '~*run: a temporary folder cannot be made' "$run" one.lisp
    builds_again 'after builds that failed' crates/low/src/lib.rt
}

# Waits until a file has something in it, at most thirty seconds, and prints it.
wait_for() {
    local turn
    for ((turn = 0; turn < 300; turn++)); do
        [ ! -s "$1" ] || { cat "$1" && return; }
        sleep 0.1
    done
}

# Stops ./run by a signal, in a session of its own: to it alone, or where - is given to all that run with it.
stop_by() { # what is tried, the signal, - or nothing, the file that the started process writes its number to
    local ran started status
    rm -f "$4"
    (trap - INT QUIT && exec setsid "$run" one.lisp) >"$work/out" 2>"$work/err" &
    ran=$!
    started=$(wait_for "$4")
    compare "$1 is stopped by $2: it has begun" '~[1-9]*' "$started"
    kill "-$2" -- "$3$ran"
    wait "$ran" 2>/dev/null
    status=$?
    compare "$1 is stopped by $2: status" "$((128 + $(kill -l "$2")))" "$status"
    compare "$1 is stopped by $2: nothing is left aside" '' "$(ls -A "$work/tmp")"
    compare "$1 is stopped by $2: what it started has ended" 1 "$(kill -0 "$started" 2>/dev/null; echo "$?")"
}

try_stopped() {
    local signal
    for signal in TERM HUP INT QUIT; do
        touch "$copy/crates/low/src/lib.rt"
        WAITS=middle stop_by 'a build' "$signal" "$(all_for "$signal")" "$CALLS.waits"
        compare "a build is stopped by $signal: calls" 'lib low,lib middle' "$(calls)"
    done
    builds_again 'builds that were stopped' crates/low/src/lib.rt
    for signal in TERM INT QUIT; do
        WAITS_FOR=$work/none stop_by 'a run' "$signal" "$(all_for "$signal")" "$work/out"
    done
}
# What is typed is for all that run in the terminal.
all_for() { [[ $1 != @(INT|QUIT) ]] || echo -; }

try_terminal() {
    touch "$copy/crates/low/src/lib.rt"
    try 'a build at a terminal' 0 $'~*\rrun: 1 of 3 crates proved, * s: middle *\rrun: 3 of 3 *is built *1*' '' \
        script -qec "'$run' one.lisp" "$work/forgotten"
    calls >"$work/forgotten"
}

# Which text is run, with which words.

run_piped() { printf '%s' "$1" | "$run"; }
run_substituted() { "$run" <(printf '%s' "$1"); }
count_bytes() { timeout 60 "$run" "$1" | wc -c; }
first_line() { "$run" "$1" | head -n 1; }
raise_flag_at_first_line() {
    local line
    "$run" one.lisp | {
        read -r line
        echo "$line"
        : >"$WAITS_FOR"
        cat
    }
}

try_arguments() {
    local words
    printf '2' >two.lisp
    try 'a file and words' 0 $'[--a][b c][]\n1' '' "$run" one.lisp --a 'b c' '' <two.lisp
    try 'a file with - as a word' 0 $'[-]\n1' '' "$run" one.lisp - <two.lisp
    try 'standard input' 0 $'[]\n2' '' "$run" <two.lisp
    try 'standard input by -' 0 $'[]\n2' '' "$run" - <two.lisp
    try 'standard input by -, and words' 0 $'[one.lisp][--a]\n2' '' "$run" - one.lisp --a <two.lisp
    for words in --a -a -- '-h ' --helper; do
        try "standard input, and the word $words" 0 "[$words][one.lisp]"$'\n2' '' "$run" "$words" one.lisp <two.lisp
    done
    try 'a pipe as standard input' 0 $'[]\n3' '' run_piped 3
    try 'help' 0 '~usage: ./run FILE*' '' "$run" -h <two.lisp
    for status in 2 3 5 6 7 99; do
        STATUS=$status try "status $status" "$status" $'[]\n1' '' "$run" one.lisp
        STATUS=$status try "status $status of standard input" "$status" $'[]\n2' '' "$run" <two.lisp
    done
}

try_names() {
    local folder="$work/a folder"
    mkdir -p "$folder/bin" && printf '1' >"$folder/.a  b.lisp" && printf '1' >"$folder/-x"
    ln -s '../../a copy/run' "$folder/bin/first"
    ln -s first "$folder/bin/run-lisp"
    cd "$folder" || exit 1
    try 'a name with blanks that begins with a dot' 0 $'[]\n1' '' "$run" '.a  b.lisp'
    try 'a name that begins with -' 0 $'[]\n1' '' "$run" ./-x
    try 'by a link to a link' 0 $'[]\n1' '' bin/run-lisp ./-x
    PATH=$folder/bin:$PATH try 'on the path' 0 $'[]\n1' '' run-lisp ./-x
    cd / || exit 1
    try 'from another folder' 0 $'[]\n1' '' "$run" "$folder/-x"
    try 'a whole path' 0 $'[]\n1' '' "$folder/bin/first" "$folder/.a  b.lisp"
    cd "$work" || exit 1
    try 'a link to a file' 0 $'[]\n1' '' "$run" /dev/stdin <one.lisp
    try 'a pipe' 0 $'[]\n4' '' run_substituted 4
    mkfifo named && (printf 5 >named &)
    try 'a named pipe' 0 $'[]\n5' '' timeout 60 "$run" named
    try 'what has no end' 0 2097155 '' count_bytes /dev/zero
}

try_unreadable() {
    mkdir folder
    ln -s nothing dangling
    for name in none.lisp dangling '' 'one.lisp/one.lisp'; do
        try "no such file '$name'" 66 '' "run: $name: no such file" "$run" "$name" <two.lisp
    done
    try 'a folder' 66 '' 'run: folder: is a folder' "$run" folder <two.lisp
    try '.' 66 '' 'run: .: is a folder' "$run" . <two.lisp
    printf '1' >closed.lisp && chmod 600 closed.lisp
    local nobody=(setpriv --reuid=65534 --regid=65534 --clear-groups)
    [ "$(id -u)" -eq 0 ] || { nobody=() && chmod 0 closed.lisp; }
    if "${nobody[@]}" true 2>"$work/forgotten"; then
        try 'a file that may not be read' 66 '' 'run: closed.lisp: cannot be read' \
            "${nobody[@]}" "$run" closed.lisp <two.lisp
        POSIXLY_CORRECT=1 try 'a file that may not be read, by the rules of sh' 66 '' \
            'run: closed.lisp: cannot be read' "${nobody[@]}" "$run" closed.lisp <two.lisp
    else
        echo 'run.sh: nobody can be asked to read what they may not, as root without setpriv'
    fi
}

try_output() {
    head -c 50000000 /dev/zero >large
    try 'a large output' 0 50000003 '' count_bytes large
    WAITS_FOR=$work/flag try 'output comes as it is written' 0 '~[1-9]*
it came' '' raise_flag_at_first_line
    try 'whoever reads has enough' 0 '[]' '' first_line large
    rm large
}

# What is said of a text that is refused.

# Runs a text that is refused, and compares what is said of it with what is wanted.
refuses() { # what is tried, the refusal, the text by the escapes of echo, what is wanted after the name of the file
    printf '%b' "$3" >refused.lisp
    REFUSAL=$2 try "$1" 4 "refused $2" "refused.lisp:$4" "$run" refused.lisp
}

# The same of a text that is refused as no variable.
marks() { # what is tried, the place, the text, the line and the column, the line with the mark
    refuses "$1" "13 UnknownVariable at $2" "$3" "$4: this symbol is no variable"$'\n'"$5"
}

try_places() {
    marks 'the first byte' 0 'x y\n' 1:1 $'x y\n^'
    marks 'another line' 6 '1\n2\n  x y\n3\n' 3:3 $'  x y\n  ^'
    marks 'after characters of several bytes' 16 '1\n"éß日😀" x' 2:8 $'"éß日😀" x\n       ^'
    marks 'after tabs' 6 '(a\t\t1 x)\n' 1:7 $'(a\t\t1 x)\n  \t\t  ^'
    marks 'lines that end in two bytes' 5 '1\r\n2 x\r\n' 2:3 $'2 x\n  ^'
    marks 'bytes that a terminal may obey' 6 'a\0\033\b\r\0177x' 1:7 $'a?????x\n      ^'
    # shellcheck disable=SC2016
    marks 'what awk or printf might obey' 12 '\\\\n %s & $0 x' 1:13 $'\\\\n %s & $0 x\n            ^'
    marks 'the end' 3 '1 x' 1:4 $'1 x\n   ^'
    marks 'the end of a line' 3 '1 x\n' 1:4 $'1 x\n   ^'
    marks 'after the last line' 4 '1 x\n' 2:1 $'\n^'
    marks 'far after the last line' 99 '1 x\n' 2:1 $'\n^'
    marks 'an empty text' 0 '' 1:1 $'\n^'
    refuses 'bytes that are not UTF-8' '1 NotUtf8 at 3' 'é \0377é\0200z\n' \
        $'1:3: this byte belongs to no character, so the text is not UTF-8\né ????z\n  ^'
}

# Prints a text so many times over, without a line's end.
repeat() { # the text, how many times
    yes "$1" | head -n "$2" | tr -d '\n'
}

try_long_lines() {
    local forty a_40 mark
    forty=$(repeat 1 40) a_40=$(repeat é 40) mark=$(repeat ' ' 40)^
    marks 'a line of 80 characters' 40 "$forty$a_40" 1:41 "$forty$a_40"$'\n'"$mark"
    marks 'a line of 81 characters' 40 "$forty$a_40"1 1:41 "$forty$a_40..."$'\n'"$mark"
    marks 'a long line' 200 "$a_40$a_40$forty$forty$a_40" 1:121 "...$forty$forty..."$'\n'"   $mark"
    marks 'a long line of long characters' 120 "$a_40$a_40$a_40" 1:61 "...$a_40$a_40..."$'\n'"   $mark"
    marks 'the end of a long line' 160 "$a_40$a_40\n" 1:81 "$a_40$a_40"$'\n'"${mark%^}$mark"
    marks 'the start of a long line' 3 "12\n$a_40$a_40$a_40" 2:1 "$a_40..."$'\n^'
    refuses 'a text that is too long' '7 TooLong at 1048576' "$(repeat 1 1048580)" \
        "1:1048577: the text is longer than 1,048,576 bytes"$'\n'"...${forty}1111"$'\n'"   $mark"
    refuses 'a text of lines that is too long' '7 TooLong at 1048576' "$(repeat '123\n' 262150)" \
        $'262145:1: the text is longer than 1,048,576 bytes\n123\n^'
    refuses 'a text that is too long and not ASCII' '7 TooLong at 1048576' "$(repeat 日 349530)" \
        "1:349527: the text is longer than 1,048,576 bytes"$'\n'"...$(repeat '?' 40)$(repeat '?' 14)"$'\n'"   $mark"
}

try_meanings() {
    local number line meanings=()
    printf 'x' >refused.lisp
    for number in {1..18}; do
        line=$(REFUSAL="$number Name at 0" "$run" refused.lisp 2>&1 >"$work/forgotten" | head -n 1)
        compare "refusal $number is explained" '~refused.lisp:1:1: *' "$line"
        compare "refusal $number is explained by itself" '' "$(printf '%s\n' "${meanings[@]}" | grep -xF "$line")"
        compare "refusal $number is known" '' "$(grep 'the program is refused' <<<"$line")"
        meanings+=("$line")
    done
    refuses 'a refusal that is not known' '19 NewOne at 1' 'xy' $'1:2: the program is refused: NewOne\nxy\n ^'
    REFUSAL='4 BadToken at 0' try 'a refusal on standard input' 4 'refused 4 BadToken at 0' '' "$run" <refused.lisp
    REFUSAL='4 BadToken at 1' try 'a refusal from a pipe' 4 'refused 4 BadToken at 1' \
        $'~/dev/fd/[0-9]*:1:2: this token means nothing\nxyz\n ^' run_substituted xyz
    STATUS=4 try 'status 4 without a refusal' 4 $'[]\n1' '' "$run" one.lisp
    compare 'nothing is left aside' '' "$(ls -A "$work/tmp")"
}

# The real program.

# Runs a text, and compares the line that refuses it, and what is said of it, with what is wanted.
really_refuses() { # the refusal, the text by the escapes of echo, the line and the column, a part of what is said
    printf '%b' "$2" >refused.lisp
    try "lisp_run: $1" 4 "refused $1" "~refused.lisp:$3: *$4*" "$run" refused.lisp
}

try_real_refusals() {
    really_refuses '1 NotUtf8 at 5' '1\n"é\0377"' 2:3 'not UTF-8'
    really_refuses '2 EndInside at 2' '1 (print 2' 1:3 'the text ends inside'
    really_refuses '3 UnmatchedClose at 2' '1\n)' 2:1 'closes nothing'
    really_refuses '4 BadToken at 4' '"é"1.' 1:4 'token'
    really_refuses '5 NumberTooLarge at 0' 99999999999999999999 1:1 'out of range'
    really_refuses '6 TooDeep at 256' "$(repeat '(' 300)" 1:257 'nested'
    really_refuses '7 TooLong at 1048576' "$(repeat '1\n' 524289)" 524289:1 'longer'
    really_refuses '8 TooManySymbols at 27524' "$(seq -f "'s%g" -s ' ' 4100)" 1:27525 '4,096 names'
    really_refuses '9 TooManyTexts at 27565' "$(seq -f '"%g"' -s ' ' 4100)" 1:27566 '4,096 strings'
    really_refuses '11 UnknownOperator at 0' '(unknown 1)' 1:1 'operator'
    really_refuses '12 BadForm at 7' '(print (setq))' 1:8 'shape'
    really_refuses '13 UnknownVariable at 7' '(print x)' 1:8 'no variable'
    really_refuses '14 FunctionPlace at 7' '(print (lambda () 1))' 1:8 'places for functions'
    really_refuses '15 RegionOutside at 0' '(allow-with-interrupts 1)' 1:1 'without-interrupts'
    really_refuses '16 NoSuchBlock at 6' '(loop)(return-from a 1)' 1:7 'block'
    really_refuses '17 TooMany at 0' "(+ $(repeat '1 ' 65))" 1:1 'limit'
    really_refuses '18 DefinedTwice at 15' '(defvar *a* 1)\n(defvar *a* 2)' 2:1 'a second time'
}

run_named() { (exec -a $'\xff' "$lisp_run" "$@"); }
write_to_full() { "$run" "$1" >/dev/full; }

try_real() {
    local journal=$'sbcl-journal 1\n1 t0 4 out "\\n3 " -> ok\n2 t0 5 finish returned 3 -> ok
report 1\nthread 0 "main thread" returned 3 points 5\nstatus 0\nend'
    local empty=$'sbcl-journal 1\n1 t0 2 finish *\nend'
    cp "$top/crates/lisp_run/out/lisp_run" "$lisp_run"
    printf '(print (+ 1 2))' >sum.lisp
    : >empty.lisp
    try 'lisp_run: a file' 0 "$journal" '' "$run" sum.lisp
    try 'lisp_run: standard input' 0 "$journal" '' "$run" <sum.lisp
    try 'lisp_run: a pipe' 0 "$journal" '' run_substituted '(print (+ 1 2))'
    try 'lisp_run: a word' 2 'refused words' '' "$run" sum.lisp --none
    try 'lisp_run: a word that is not UTF-8' 2 'refused words' '' "$run" --none $'\xff' <sum.lisp
    try 'lisp_run: a word of its own that is not UTF-8' 2 'refused words' '' run_named $'--\xff' <sum.lisp
    try 'lisp_run: a name of its own that is not UTF-8' 0 "~$empty" '' run_named <empty.lisp
    try 'lisp_run: standard input fails' 5 '' '' "$run" <"$work"
    try 'lisp_run: standard output fails' 6 '' '' write_to_full sum.lisp
    try_real_refusals
}

# Each example stands as it is in the table of runs of session_tests.
try_examples() {
    local table file stands
    table=$(<"$top/crates/session_tests/src/examples.rt")
    for file in "$top"/examples/*.lisp; do
        stands=no
        [[ $table != *"$(<"$file")"$'\n=> '* ]] || stands=yes
        compare "${file##*/} stands in the table of runs" yes "$stands"
    done
}

try_first_build
try_builds_again
try_builds_that_fail
try_stopped
try_terminal
try_arguments
try_names
try_unreadable
try_output
try_places
try_long_lines
try_meanings
try_examples
if [ -x "$top/crates/lisp_run/out/lisp_run" ]; then
    try_real
else
    echo 'run.sh: lisp_run is not built, so only a program that stands in was tried'
fi
echo "run.sh: $passed passed, $failed failed"
[ "$failed" -eq 0 ]
