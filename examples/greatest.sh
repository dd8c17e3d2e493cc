#!/bin/bash
# Runs the program on the greatest inputs that it takes, and on some that are one greater, and compares its answers with
# stated ones:
# - an image of 33,554,432 bytes whose memory has 67,108,864;
# - 65,536 tasks with as many objects named at one time, and 1,048,576 bytes of output;
# - a machine of which each limit and each size is the greatest, in a description of 65,536 bytes;
# - logs of 67,108,864 bytes, of both formats;
# - the workload with 40 blocks a side, whose program has more than 32,768 words.
# The images are made here, word by word, so that they need no compiler. All takes about a minute, a gigabyte of memory
# and half a gigabyte of disk. The last line is `N passed, M failed`. It ends with 0 where none failed, else with 1.
# The simulator is ../tss, or the program that TSS names.
set -u
here=$(cd "$(dirname "$0")" && pwd) || exit 2
tss=$(readlink -f "${TSS:-$here/../tss}") || exit 2
work=$(mktemp -d) || exit 2
trap 'rm -rf "$work"' EXIT
cd "$work" || exit 2

# ---- judging

passed=0
failed=0

# judge NAME PROBLEM: one row. All is well where the problem is empty.
judge() {
    if [ -z "$2" ]; then
        passed=$((passed + 1))
        echo "$1: OK"
    else
        failed=$((failed + 1))
        echo "$1: $2"
    fi
}

# first_line FILE
first_line() {
    head -n 1 "$1" | tr -d '\0'
}

# answers NAME STATUS WORDS..: runs the program. What it says must be the file `expected`, but for the lines of events
# and peaks. It stands in the file `said`.
answers() {
    local name=$1 wanted=$2 status problem=
    shift 2
    timeout 100 "$tss" "$@" >said 2>errors
    status=$?
    if [ $status != "$wanted" ]; then
        problem="status $status in place of $wanted, '$(first_line said)'"
    elif ! grep -av '^events \|^peak ' said | cmp -s expected -; then
        problem="the answer '$(first_line said)' .. isn't the stated one"
    fi
    judge "$name" "$problem"
}

# says NAME STATUS LINE WORDS..: the same, where the whole answer is this line.
says() {
    local name=$1 wanted=$2
    echo "$3" >expected
    shift 3
    answers "$name" "$wanted" "$@"
}

# begins NAME STATUS LINE WORDS..: the same, where the answer's first line is stated.
begins() {
    local name=$1 wanted=$2 line=$3 status problem=
    shift 3
    timeout 100 "$tss" "$@" >said 2>errors
    status=$?
    [ $status = "$wanted" ] || problem="status $status in place of $wanted"
    [ "$(first_line said)" = "$line" ] || problem="$problem${problem:+, }'$(first_line said)' in place of '$line'"
    judge "$name" "$problem"
}

# ---- images, word by word: registers and numbers come in the order of the assembler's lines

code_at=$((0x10000))
data_at=$((0x20000))

put() { words+=($(($1 & 0xffffffff))); }
# The address of the next word.
next() { echo $((code_at + 4 * ${#words[@]})); }
addi() { put $((($3 & 0xfff) << 20 | $2 << 15 | $1 << 7 | 0x13)); }
li() {
    put $((($2 + 0x800) & 0xfffff000 | $1 << 7 | 0x37))
    addi "$1" "$1" "$2"
}
add() { put $(($3 << 20 | $2 << 15 | $1 << 7 | 0x33)); }
lw() { put $((($2 & 0xfff) << 20 | $3 << 15 | 2 << 12 | $1 << 7 | 0x03)); }
sw() { put $((($2 >> 5 & 0x7f) << 25 | $1 << 20 | $3 << 15 | 2 << 12 | ($2 & 31) << 7 | 0x23)); }
bnez() {
    local far=$(($2 - $(next)))
    put $(((far >> 12 & 1) << 31 | (far >> 5 & 0x3f) << 25 | $1 << 15 | 1 << 12 | (far >> 1 & 15) << 8 |
        (far >> 11 & 1) << 7 | 0x63))
}
ecall() { put 0x73; }
ret() { put 0x8067; }
# call NUMBER: 1 exit, 2 spawn, 3 barrier, 4 print
call() {
    li 17 "$1"
    ecall
}

# code PROGRAM: the words of a program, and their length in bytes. It is written twice, since its first words name what
# comes behind them.
task=0
list=0
length=0
code() {
    for _ in once twice; do
        words=()
        "$1"
        length=$((4 * ${#words[@]}))
    done
}

# bytes WORD..: words as bytes, the lowest first
bytes() {
    local word text=
    for word; do
        printf -v text '%s\\x%02x\\x%02x\\x%02x\\x%02x' "$text" \
            $((word & 255)) $((word >> 8 & 255)) $((word >> 16 & 255)) $((word >> 24 & 255))
    done
    printf '%b' "$text"
}

# digits WORD: the same bytes as hexadecimal digits
digits() {
    printf '%02x%02x%02x%02x' $(($1 & 255)) $(($1 >> 8 & 255)) $(($1 >> 16 & 255)) $(($1 >> 24 & 255))
}

# image FILE-LENGTH MEMORY-LENGTH: the image of the words, and of data with these lengths. Their bytes come in.
image() {
    head -c 52 "$here/exit7.elf"
    bytes 1 116 $code_at $code_at $length $length 5 4
    bytes 1 $((116 + length)) $data_at $data_at "$1" "$2" 6 4
    bytes "${words[@]}"
    head -c "$1"
}

# ---- machines

keys=(main_budget=1000000000 task_budget=100000000 max_tasks=65536 max_operands=7 object_bytes=65536
    epoch_objects=65536 output_bytes=1048576 stations=16 slots=64 workers=64 banks=64 entries=256 versions=256
    buffers=64 quantum=65536 window=8)
printf '%s\n' "${keys[@]}" >keys

# padded LENGTH: the greatest machine in a description of this length
padded() {
    cat keys
    head -c $(($1 - $(stat -c %s keys))) /dev/zero | tr '\0' '#'
}

machine_rows() {
    local key name exit7=$here/exit7.elf
    padded 65536 >machine
    printf 'end exit 7\ntasks 0\noutput 0\n\n' >expected
    answers "the greatest machine, in program order" 0 inorder "$exit7" machine
    answers "the greatest machine, a run" 0 run "$exit7" machine seed 1
    padded 65537 >over
    says "its description, longer by a byte" 7 "long machine" inorder "$exit7" over
    for key in "${keys[@]}"; do
        name=${key%=*}
        sed "s/^$name=.*/$name=$((${key#*=} + 1))/" keys >over
        says "a machine with $((${key#*=} + 1)) as $name" 4 "machine 5 $name" inorder "$exit7" over
    done
}

# ---- the greatest image

# A task copies the last word that the file has to the last word of memory, and main prints that one.
copies_a_word() {
    file=$((33554432 - 116 - length))
    memory=$((67108864 - length))
    li 10 $task
    li 11 $list
    li 12 2
    li 13 0
    call 2
    call 3
    li 10 $((data_at + memory - 4))
    li 11 4
    call 4
    li 10 0
    call 1
    task=$(next)
    lw 5 0 10
    li 6 65536
    add 11 11 6
    sw 5 -4 11
    ret
    list=$(next)
    put $((data_at + file - 4))
    put 4
    put 1
    put $((data_at + memory - 65536))
    put 65536
    put 2
}

# forms IMAGE MACHINE NAME: the forms with an image, whose report stands in `expected`
forms() {
    answers "$3, in program order" 0 inorder "$1" "$2"
    rm -f log
    answers "$3, a run with a log" 0 run "$1" "$2" seed 1 log log
    cp said logged
    answers "$3, a run by that log" 0 run "$1" "$2" given log
    judge "$3, the same events and peaks" "$(cmp logged said 2>&1)"
}

image_rows() {
    local last zeros
    code copies_a_word
    { yes 'the data' | head -c $((file - 4)); printf 'last'; } | image "$file" "$memory" >large
    judge "the length of the greatest image" "$([ "$(stat -c %s large)" = 33554432 ] || stat -c %s large)"
    last=$(((memory - 1) / 16 * 16))
    printf -v zeros '%0*d' $((2 * (memory - last - 4))) 0
    printf 'end exit 0\ntasks 1\noutput 4\nlast\nrow %08x %s%s\n' $((data_at + last)) \
        "${zeros:0:2 * (memory - last - 4)}" 6c617374 >expected
    forms large machine "the greatest image"
    tail -n 1 expected >row
    timeout 100 "$tss" state large machine given log >said 2>errors
    judge "the greatest image, its state" "$(grep -a '^row \|^enabled ' said | cmp - <(cat row; echo 'enabled 0') 2>&1)"

    printf x >>large
    says "an image that is longer by a byte" 7 "long image" inorder large machine
    code copies_a_word
    yes 'the data' | image "$file" $((memory + 1)) >large
    says "an image with a byte more in memory" 3 "image 17" inorder large machine
    rm -f large log
}

# ---- the most tasks, objects and output

# Each of `count` tasks stores its number in an object of its own, and main prints them, four times. What it does `more`
# is an empty spawn or a byte of output.
numbers_words() {
    local turn
    li 8 "$count"
    li 9 $words_at
    li 10 $task
    li 11 $data_at
    li 12 1
    li 13 0
    li 17 2
    turn=$(next)
    addi 13 13 1
    sw 9 0 11
    spawns_at=$(next)
    ecall
    addi 9 9 4
    addi 8 8 -1
    bnez 8 "$turn"
    call 3
    if [ "$more" = task ]; then
        li 12 0
        call 2
        more_at=$(($(next) - 4))
    fi
    li 9 4
    li 10 $words_at
    li 11 $((4 * 65536))
    li 17 4
    turn=$(next)
    ecall
    addi 9 9 -1
    bnez 9 "$turn"
    if [ "$more" = byte ]; then
        li 11 1
        call 4
        more_at=$(($(next) - 4))
    fi
    li 10 0
    call 1
    task=$(next)
    sw 11 0 10
    ret
}

# numbers COUNT MORE: the image. Its data are an operand's base, length and mode, and then the objects.
numbers() {
    count=$1
    more=$2
    code numbers_words
    bytes 0 4 2 0 | image 16 $((16 + 4 * 65537)) >tasks
}

# The report of 65,536 tasks: all numbers are printed and stand in memory, and the operand's base is the last one.
numbers_report() {
    local numbers
    numbers=$(awk 'BEGIN {
        for (n = 1; n <= 65536; n++) printf "\\x%02x\\x%02x\\x%02x\\x00", n % 256, int(n / 256) % 256, int(n / 65536)
    }')
    printf 'end exit 0\ntasks 65536\noutput 1048576\n'
    printf '%b' "$numbers" "$numbers" "$numbers" "$numbers"
    printf '\nrow %08x %s\n' $data_at "$(digits $((words_at + 4 * 65535)))$(digits 4)$(digits 2)$(digits 0)"
    awk -v at=$words_at 'BEGIN {
        for (n = 1; n <= 65536; n++) {
            if (n % 4 == 1) printf "row %08x ", at + 4 * (n - 1)
            printf "%02x%02x%02x00", n % 256, int(n / 256) % 256, int(n / 65536)
            if (n % 4 == 0) print ""
        }
    }'
}

task_rows() {
    words_at=$((data_at + 16))
    numbers 65536 nothing
    numbers_report >expected
    forms tasks machine "65,536 tasks and objects"
    numbers 65537 nothing
    begins "one object more" 2 "$(printf 'end refused 9 %08x' "$spawns_at")" inorder tasks machine
    numbers 65536 task
    begins "one task more" 2 "$(printf 'end refused 10 %08x' "$more_at")" inorder tasks machine
    numbers 65536 byte
    begins "one byte of output more" 2 "$(printf 'end refused 12 %08x' "$more_at")" inorder tasks machine
    rm -f tasks log
}

# ---- the longest logs

# A loop: 13,421,771 instructions in all. Where the quantum is 1 each is an event.
loops() {
    local turn
    li 5 6710882
    turn=$(next)
    addi 5 5 -1
    bnez 5 "$turn"
    li 10 0
    call 1
}

log_rows() {
    code loops
    rm -f log
    image 0 4096 </dev/null >loop
    sed 's/^quantum=.*/quantum=1/' keys >steps
    printf 'end exit 0\ntasks 0\noutput 0\n\n' >report
    cp report expected
    answers "a run of 13,421,771 events" 0 run loop steps seed 1 log log
    judge "its log" "$({ echo 'tss-log 2'; yes main | head -n 13421771; } | cmp - log 2>&1)"
    says "that log, of 67,108,865 bytes" 7 "long schedule" run loop steps given log
    truncate -s 67108864 log
    cp report expected
    answers "the same without its last byte" 0 run loop steps given log
    begins "the state that it leaves" 0 "$(printf 'main %08x 13421771 0 ended' $((code_at + length)))" \
        state loop steps given log
    rm log
}

migration_rows() {
    yes main | head -c 67108864 >old
    says "an older log of 67,108,864 bytes" 0 "migrated 13421773" migrate old new
    judge "the new log" "$({ echo 'tss-log 2'; cat old; echo; } | cmp - new 2>&1)"
    rm -f new
    echo >>old
    says "an older log that is longer by a byte" 7 "long schedule" migrate old new
    judge "no new log" "$([ ! -e new ] || echo 'there is one')"
    rm old
}

# ---- the workload

# The digests are those of another program, by the same definition.
workload_rows() {
    printf 'self 40\nend exit 0\ntasks 11520\noutput 0\n\ndigest %s\n' \
        afedd5b07aeb9baef62b4893a9526177db5aafef17a8728e46ed5b0fa1ec7f30 >expected
    answers "40 blocks a side" 0 self 40
    printf 'self 40 mul\nend exit 0\ntasks 11520\noutput 0\n\ndigest %s\n' \
        f44f76301ea19cd225e4a2367a6055a190ea75cb2da47a994030bd8d07a03681 >expected
    answers "40 blocks a side, with products" 0 self 40 mul
    timeout 100 "$tss" self >usage
    says "41 blocks a side" 6 "$(cat usage)" self 41
}

machine_rows
image_rows
task_rows
log_rows
migration_rows
workload_rows

echo "$passed passed, $failed failed"
[ $failed = 0 ]
