#!/bin/sh
# Runs the program to each of its statuses, by what a user may meet: programs and machines that are refused, files that
# can't be read, an output that can't be written, and a limit on memory. It compares status and text with the rules.
# The last line is `N passed, M failed`. It ends with 0 where none failed, else with 1. The simulator is ../tss, or the
# program that TSS names.
here=$(cd "$(dirname "$0")" && pwd) || exit 2
tss=${TSS:-$here/../tss}
machine=$here/small.toml
work=$(mktemp -d) || exit 2
trap 'chmod -R u+rwx "$work"; rm -rf "$work"' EXIT
cd "$work" || exit 2

passed=0
failed=0
# judge NAME STATUS WANTED-STATUS SAID WANTED
judge() {
    if [ "$2" = "$3" ] && [ "$4" = "$5" ]; then
        echo "$3, $1: OK"
        passed=$((passed + 1))
    else
        echo "$3, $1: status $2 and '$4' in place of '$5'"
        failed=$((failed + 1))
    fi
}
# answers NAME STATUS FIRST-LINE WORDS..
answers() {
    name=$1 status=$2 line=$3
    shift 3
    "$tss" "$@" >said 2>errors
    judge "$name" $? "$status" "$(head -n 1 said)" "$line"
}
# An image like exit7.elf with the four bytes of another first instruction, in octal.
image() {
    cp "$here/exit7.elf" "$1"
    # shellcheck disable=SC2059
    printf "$2" | dd of="$1" bs=1 seek=116 conv=notrunc 2>/dev/null
}

usage='usage: run IMAGE MACHINE seed N [log FILE] | run IMAGE MACHINE given FILE | state IMAGE MACHINE given FILE | inorder IMAGE MACHINE | self N | migrate FILE NEW | self N mul'
exit7=$here/exit7.elf

answers "exit" 0 "end exit 7" inorder "$exit7" "$machine"
judge "its whole report" 0 0 "$(cat said; echo .)" "$(printf 'end exit 7\ntasks 0\noutput 0\n\n.')"

# EBREAK, and a jump to itself until the budget is spent
image trap.elf '\163\000\020\000'
answers "a trap" 1 "end main-trap 00010000 3 00010000" inorder trap.elf "$machine"
image loop.elf '\157\000\000\000'
answers "a spent budget" 2 "end refused 11 00010000" inorder loop.elf "$machine"

answers "a text as an image" 3 "image 2" inorder "$machine" "$machine"
: >empty
answers "an empty image" 3 "image 1" inorder empty "$machine"
answers "an image as a machine" 4 "machine 1" inorder "$exit7" "$exit7"
answers "an empty machine" 4 "machine 2 main_budget" inorder "$exit7" empty
printf 'tss-log 2\nmain\n' >new-log
answers "a log that was cut off" 5 "schedule short 3" run "$exit7" "$machine" given new-log
"$tss" run "$exit7" "$machine" seed 1 log two-runs >said && "$tss" run "$exit7" "$machine" seed 2 log two-runs >said
answers "a log of two runs" 5 "schedule bad-line 4" run "$exit7" "$machine" given two-runs
answers "a log of the present format" 5 "schedule bad-line 1" migrate new-log newer-log

answers "no words" 6 "$usage"
if [ -z "${TSS-}" ]; then
    # The script's own: the program's usage line, and then a line for each form.
    for word in --help -h help; do
        answers "$word" 0 "$usage" $word
    done
    lacking=$(echo "${usage#usage: }" | sed 's/ | /\n/g' | while read -r form; do
        awk -v form="$form  " 'index($0, form) == 1 { found = 1 } END { exit !found }' said || echo "$form"
    done)
    judge "a line for each form" 0 0 "$lacking" ""
fi
answers "an unknown word" 6 "$usage" in-order "$exit7" "$machine"
answers "one word too many" 6 "$usage" inorder "$exit7" "$machine" "$machine"
answers "a word that isn't UTF-8" 6 "$usage" inorder "$exit7" "$(printf 'm\377')"

answers "no such machine" 7 "read machine" inorder "$exit7" missing
answers "no such image" 7 "read image" inorder missing "$machine"
mkdir folder
answers "a folder" 7 "read image" inorder folder "$machine"
cp "$exit7" closed.elf
chmod 000 closed.elf
if ! [ -r closed.elf ]; then
    answers "a file that may not be read" 7 "read image" inorder closed.elf "$machine"
elif setpriv --reuid=65534 --regid=65534 --clear-groups "$tss" >said 2>errors; [ $? = 6 ]; then
    # This user may read all files, so nobody asks for it.
    setpriv --reuid=65534 --regid=65534 --clear-groups "$tss" inorder closed.elf "$machine" >said 2>errors
    judge "a file that may not be read" $? 7 "$(head -n 1 said)" "read image"
else
    echo "7, a file that may not be read: not tried, since this user may read all files"
fi
head -c 65537 /dev/zero >long
answers "a machine that is too long" 7 "long machine" inorder "$exit7" long
head -c 33554433 /dev/zero >long
answers "an image that is too long" 7 "long image" inorder long "$machine"

"$tss" inorder "$exit7" "$machine" >/dev/full 2>errors
judge "a full disk" $? 8 "" ""
"$tss" inorder "$exit7" "$machine" >&- 2>errors
judge "a closed output" $? 8 "" ""
{
    "$tss" inorder "$exit7" "$machine" 2>errors
    echo $? >status
} | true
sleep 1
{
    sleep 1
    "$tss" inorder "$exit7" "$machine" 2>errors
    echo $? >status
} | true
judge "a reader that has gone" "$(cat status)" 8 "" ""

# Memory that is asked for and not to be had: 60 megabytes of zeros in a segment of their own.
cp "$exit7" large.elf
printf '\000\000\300\003' | dd of=large.elf bs=1 seek=104 conv=notrunc 2>/dev/null
(
    # shellcheck disable=SC3045
    ulimit -v 40000
    exec "$tss" inorder large.elf "$machine" >said 2>errors
)
judge "a limit on memory" $? 9 "$(head -n 1 said)" "no memory"

echo "$passed passed, $failed failed"
[ $failed = 0 ]
