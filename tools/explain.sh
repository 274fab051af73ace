#!/usr/bin/env bash
# Says what is wrong with a text that lisp_run refuses: explain.sh NAME TEXT LINE, where NAME is what the file TEXT is called,
# and LINE is what lisp_run wrote. It prints NAME, the line and the column in characters, a sentence, and the line of the text
# with the place marked.
set -u
name=$1 text=$2 refusal=$3
[[ $refusal =~ ^refused\ ([0-9]+)\ ([[:alnum:]]+)\ at\ ([0-9]+)$ ]] || exit 1
number=${BASH_REMATCH[1]} place=${BASH_REMATCH[3]}

case $number in
1) why='this byte belongs to no character, so the text is not UTF-8' ;;
2) why='the text ends inside the list, the string or the quote that starts here' ;;
3) why='this parenthesis closes nothing, or stands where a quote wants a datum' ;;
4) why='this token means nothing' ;;
5) why='this number is out of range: integers go from -2^62 to 2^62-1, times up to 4,000,000,000 seconds' ;;
6) why='what starts here is nested 257 deep, and 256 is the limit' ;;
7) why='the text is longer than 1,048,576 bytes' ;;
8) why='this name is new, and the program has 4,096 names before it, which is the limit' ;;
9) why='this string is new, and the program has 4,096 strings before it, which is the limit' ;;
10) why='the program is accepted, but this form is not run yet' ;;
11) why='the head of this form is no operator or function, or this names no function of the program' ;;
12) why='this form has a wrong shape or number of arguments, stands where it may not, or binds, sets or defines what is fixed' ;;
13) why='this symbol is no variable' ;;
14) why='a function stands outside the places for functions, or another form stands in such a place' ;;
15) why='this form has no without-interrupts written round it in its function' ;;
16) why='this form leaves a block that is not round it in its function' ;;
17) why='this form passes a limit: 64 arguments, parameters or variables, 16 clauses, 256 special variables, 1,024 functions' ;;
18) why='this form defines a name a second time, or a name of the language, or has a variable twice in one list' ;;
*) why="the program is refused: ${BASH_REMATCH[2]}" ;;
esac

# A byte that continues a character is not counted. What a terminal might take for a command is shown as a question mark,
# and so are the bytes from the place on where they are not UTF-8, or may not be.
head -c 2097152 <"$text" | LC_ALL=C tr '\000-\010\013\014\016-\037\177' '?' |
    LC_ALL=C NAME=$name WHY=$why awk -v number="$number" -v place="$place" '
    function characters(text) { return gsub(/[^\200-\277]/, "", text) }
    function first(text, many, i) {
        for (i = 1; i <= length(text); i++)
            if (substr(text, i, 1) !~ /[\200-\277]/ && many-- == 0) return substr(text, 1, i - 1) "..."
        return text
    }
    function last(text, many, i) {
        for (i = length(text); i > 0 && many > 0; i--)
            if (substr(text, i, 1) !~ /[\200-\277]/) many--
        return (i > 0 ? "..." : "") substr(text, i + 1)
    }
    place <= start + length($0) { line = $0; row = NR; exit }
    { start += length($0) + 1 }
    END {
        if (!row) row = NR + 1
        before = substr(line, 1, place - start); after = substr(line, place - start + 1)
        print ENVIRON["NAME"] ":" row ":" (characters(before) + 1) ": " ENVIRON["WHY"]
        sub(/\r$/, "", after); gsub(/\r/, "?", before); gsub(/\r/, "?", after)
        if (number == 1 || number == 7) gsub(/[\200-\377]/, "?", after)
        if (number == 7) gsub(/[\200-\377]/, "?", before)
        if (characters(before after) > 80) { before = last(before, 40); after = first(after, 40) }
        mark = before; gsub(/[\200-\277]/, "", mark); gsub(/[^\t]/, " ", mark)
        print before after; print mark "^"
    }'
