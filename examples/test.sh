#!/bin/sh
# Tests of the programs that a single run on a file can't make. Of the console: the day through bin/relay, input in small pieces, unfinished last lines, the
# journal, a restart on it, and what happens where the journal can't be used or the output can't be written. Of bin/replay: that journal, a log in pieces, faults,
# and what can't be read or written. What a journal survives is examples/daylog.py's to test. Says which test fails; the last line is 'N passed, M failed', the
# status 1 if one did.
set -u
cd "$(dirname "$0")/.." || exit 2
room=$(mktemp -d) || exit 2
trap 'rm -rf "$room"' EXIT
passed=0 failed=0

# what a test wrote, and what it should have written
same() { # NAME GOT EXPECTED
    if cmp -s "$2" "$3"; then
        passed=$((passed + 1))
    else
        echo "examples: $1: differs: $(cmp "$2" "$3" 2>&1)"
        failed=$((failed + 1))
    fi
}

said() { # NAME FILE
    if [ -s "$2" ]; then
        passed=$((passed + 1))
    else
        echo "examples: $1: nothing was said on standard error"
        failed=$((failed + 1))
    fi
}

# A day-log record by document 01: 73 82, the link, the length high byte first, the line.
record() { # LINK LINE
    n=$((${#2} + 2))
    printf 'IR'
    # shellcheck disable=SC2059
    printf "\\$(printf %03o "$1")\\$(printf %03o $((n / 256)))\\$(printf %03o $((n % 256)))"
    printf '%s\r\n' "$2"
}

# ---- the day
bin/relay <examples/morning.txt >"$room/out"
same "the day" "$room/out" examples/morning.out
console=crates/console/out/console

head -c "$(wc -c <examples/morning.txt)" crates/console/stdin >"$room/in"
same "the crate's own input begins with the day" "$room/in" examples/morning.txt

# ---- pieces
for size in 1 7 511; do
    dd bs=$size if=crates/console/stdin 2>"$room/err" | $console >"$room/out"
    same "pieces of $size" "$room/out" crates/console/stdout
done

# ---- unfinished last lines, and none
unfinished() { # INPUT OUTPUT
    # shellcheck disable=SC2059
    printf "$1" | $console >"$room/out"
    # shellcheck disable=SC2059
    printf "$2" >"$room/expected"
    same "unfinished: $1" "$room/out" "$room/expected"
}
unfinished '' ''
unfinished '+1' '= 0\n'
unfinished '+1\r' '! input\n'
unfinished '+1\n' '= 0\n'
unfinished '+1\n?' '= 0\n.\n'
unfinished '+1\n1 ' '= 0\n! 5\n'
unfinished 'banned' '! input\n'
unfinished 'banned #a' '! input\n'
unfinished 'banned #a ' '! 19\n'
unfinished 'banned #a x\r' '! 19\n'
unfinished '+1\n1 :1CBAAAAAA QUIT' '= 0\n! 5\n'
unfinished '+1\n1 :1CBAAAAAA QUIT\r' '= 0\n! 5\n'

# ---- lines that are refused at a place, which counts in the link's line: a letter unknown, one twice, a parameter missing, a bad key, a bad limit; one without a place
{
    printf '+1\n+31\n'
    for modes in '+nx' '+nn' '+k' '+k a,b' '+l 0'; do
        printf '1 :1CB SJOIN 5 #a %s 1CBAAAAAA\r\n31 :1CB SJOIN 5 #a %s 1CBAAAAAA\r\n' "$modes" "$modes"
    done
    printf '1 :1CB SJOIN 5 a +nn 1CBAAAAAA\r\n'
} | $console "$room/none" >"$room/out"
printf '= 0\n= 0\n! 32 18\n! 32 18\n! 33 18\n! 33 18\n! 34 28\n! 34 28\n! 35 19\n! 35 19\n! 36 19\n! 36 19\n! 16\n' >"$room/expected"
same "places at fault" "$room/out" "$room/expected"
same "a line refused at a place isn't kept" "$room/none" /dev/null

# ---- lines of more than fourteen words: what stands behind the fourteenth is the fifteenth parameter, and the command decides
{
    printf '+1\n'
    for words in 'a b c d e f g h i j k l m n o p' 'a b c d e f g h i j k l m n :o p' 'a b c d e f g h i j k l m n o p q r s t  '; do
        printf '1 X %s\r\n1 :1CB SJOIN %s\r\n1 QUIT %s\r\n' "$words" "$words" "$words"
    done
} | $console "$room/words" >"$room/out"
printf '= 0\n! 11\n! 12\n! 12\n! 11\n! 12\n! 12\n! 11\n! 12\n! 12\n' >"$room/expected"
same "lines of many words" "$room/out" "$room/expected"
same "a line of many words isn't kept" "$room/words" /dev/null

# ---- the journal: the accepted lines of the day, and those alone
{
    record 1 ':1CB SJOIN 70030 #penalty +n :@1CBAAAAAA'
    record 1 ':1CB SJOIN 70010 #race +nk buoy :@1CBAAAAAA +1CBAAAAAB'
    record 0 ':0PD SJOIN 70000 #Penalty +nt :@0PDAAAAAA @0PDAAAAAB'
    record 2 ':2MK SJOIN 70020 #penalty + :@2MKAAAAAA'
    record 2 ':2MK SJOIN 70010 #race +l 40 :+2MKAAAAAA'
    record 1 ':1CB SJOIN 70010 #race +nk buoy :@1CBAAAAAA +1CBAAAAAB'
    record 1 ':1CB SJOIN 70030 #penalty +n :@1CBAAAAAA'
    record 2 ':2MKAAAAAA PART #race :weighing anchor'
    record 2 ':2MKAAAAAA QUIT'
    record 3 ':3SP SJOIN 70010 #race + :3SPAAAAAA'
    record 1 ':1CB BMASK 70010 #race b :Rowdy*!*@* *!*@rowdy.boat'
    record 2 ':2MK BMASK 70011 #race b *!*@*'
    record 3 ':3SPAAAAAA QUIT :spoilsports'
} >"$room/expected"
$console "$room/journal" <examples/morning.txt >"$room/out"
same "the day with a journal" "$room/out" examples/morning.out
same "a journal is made" "$room/journal" "$room/expected"

# ---- the journal replayed: it leaves the table at the day's end, which the last answer of the day has before its '.'
tail -n 5 examples/morning.out | sed '$d' >"$room/left"
bin/replay <"$room/journal" >"$room/out"
same "the journal replayed" "$room/out" "$room/left"
day=crates/day/out/day
for size in 1 7 511; do
    dd bs=$size if=crates/day/stdin 2>"$room/err" | $day >"$room/out"
    same "a log in pieces of $size" "$room/out" crates/day/stdout
done

# ---- a restart: the day goes on where it was, with no link registered, and its journal too
{
    printf '?\n1 :1CBAAAAAB PART #race\r\n+1\n+2\n1 :1CBAAAAAB PART #race\r\n1 :1CBAAAAAB PART #race\r\n'
    printf '2 :2MK SJOIN 70040 #start + :@2MKAAAAAA\r\nbanned #race sam!deck@rowdy.boat\n?\n'
} >"$room/in"
{
    printf '70000 #penalty +nt @0PDAAAAAA @0PDAAAAAB 1CBAAAAAA\n\n70010 #race +nkl buoy 40 @1CBAAAAAA\n*!*@rowdy.boat Rowdy*!*@*\n'
    printf '70040 #start + @2MKAAAAAA\n\n'
} >"$room/end"
{
    cat "$room/left"
    printf '.\n! 3\n= 0\n= 0\n2 :1CBAAAAAB PART #race\r\n! 20\n1 :2MK SJOIN 70040 #start + @2MKAAAAAA\r\nyes\n'
    cat "$room/end"
    printf '.\n'
} >"$room/answers"
bin/relay "$room/journal" <"$room/in" >"$room/out" 2>"$room/err"
same "a restart" "$room/out" "$room/answers"
same "a restart says nothing" "$room/err" /dev/null
{
    record 1 ':1CBAAAAAB PART #race'
    record 2 ':2MK SJOIN 70040 #start + :@2MKAAAAAA'
} >>"$room/expected"
same "a restart's journal" "$room/journal" "$room/expected"
bin/replay <"$room/journal" >"$room/out"
same "a restart's journal replayed" "$room/out" "$room/end"

# ---- faults of a log, each at its byte; behind a record what stood before is printed
faulty() { # LOG OUTPUT
    # shellcheck disable=SC2059
    printf "$1" | $day >"$room/out"
    # shellcheck disable=SC2059
    printf "$2" >"$room/expected"
    same "a log at fault: $1" "$room/out" "$room/expected"
}
faulty '' ''
faulty 'J' '28 0\n'
faulty 'IS' '28 1\n'
faulty 'IR\040' '29 2\n'
faulty 'IR\037\002\001' '30 3\n'
faulty 'I' '31 1\n'
faulty 'IR\037\377' '31 4\n'
faulty 'IR\037\000\001' '31 5\n'
faulty 'IR\037\000\000' '5 0\n'
faulty 'IR\000\000\062:1AB SJOIN 5 #a +kl key 7 :@+1ABAAAAAA 1ABAAAAAB\r\nIR\040' '5 #a +kl key 7 @+1ABAAAAAA 1ABAAAAAB\n\n29 57\n'

# ---- a log that can't be read, and an output that can't be written: no answer
bin/replay <"$room" >"$room/out" 2>"$room/err"
printf '%s\n' $? >"$room/status"
printf '1\n' >"$room/expected"
same "a log that can't be read: status" "$room/status" "$room/expected"
same "a log that can't be read" "$room/out" /dev/null
said "a log that can't be read" "$room/err"
$day <crates/day/stdin >/dev/full 2>"$room/err"
said "a replay into a full output" "$room/err"

# ---- a journal that can't be used: no answer. What is written to /dev/full can't be synced, so that is refused at the start
printf '+1\n1 :1CBAAAAAA QUIT\r\n+2\n' >"$room/in"
$console /dev/full <"$room/in" >"$room/out" 2>"$room/err"
same "a journal that can't be synced" "$room/out" /dev/null
cut -d : -f 1,2 "$room/err" >"$room/said"
printf 'relay: /dev/full\n' >"$room/expected"
same "a journal that can't be synced: what is said" "$room/said" "$room/expected"
$console "$room" <"$room/in" >"$room/out" 2>"$room/err"
same "a journal that can't be opened" "$room/out" /dev/null
said "a journal that can't be opened" "$room/err"

# ---- an output that can't be written
$console <"$room/in" >/dev/full 2>"$room/err"
said "a full output" "$room/err"

echo "$passed passed, $failed failed"
[ "$failed" -eq 0 ]
