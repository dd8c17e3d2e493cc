#!/bin/bash
# Tries the built program against an outside that fails, and prints a table of forms and faults:
# - memory that is refused: one request, or one and all later ones; each request of small runs, some of larger ones;
# - each open, read, write and close that fails, is interrupted, or moves fewer bytes than it should;
# - an output that is full, closed, or left by its reader;
# - files without the right to read or to write them, and names of folders, pipes, devices, or of nothing.
# Each answer must have the stated status and text, and a log must be whole, a beginning of the whole, or not there.
# The faults of calls are made by hostile/failing.c, a library that is loaded before the C library (LD_PRELOAD): the
# program must be linked with a shared C library. It asks for no fsync, so none can fail.
# The last line is `N passed, M failed`. It ends with 0 where none failed, with 1 where one did, and with 2 where a
# package isn't there. The simulator is ../tss, or the program that TSS names.
set -u
here=$(cd "$(dirname "$0")" && pwd) || exit 2
missing=0
need() {
    command -v "$1" >/dev/null && return
    echo "$1 isn't there: install the package $2"
    missing=1
}
need cc gcc
need setpriv util-linux
[ $missing = 0 ] || exit 2

# Where the program is a script that builds it, that is done first: the library is for the program alone.
tss=$(readlink -f "${TSS:-$here/../tss}") || exit 2
if [ "$(head -c 2 "$tss")" = '#!' ]; then
    "$(dirname "$tss")/scripts/build" || exit 2
    tss=$(dirname "$tss")/crates/tss_run/out/tss_run
fi
work=$(mktemp -d) || exit 2
trap 'chmod -R u+rwx "$work"; rm -rf "$work"' EXIT
cp "$tss" "$work/tss_run" || exit 2
cc -O2 -shared -fPIC -o "$work/failing.so" "$here/hostile/failing.c" || exit 2
cd "$work" || exit 2
chmod 755 . tss_run
mkdir plain

# ---- rows of the table

passed=0
failed=0
tries=0
problems=0
problem=

# One row of all tries since the last one. There is no row where there was no try.
row() {
    [ $tries = 0 ] && return
    if [ $problems = 0 ]; then
        passed=$((passed + 1))
        printf '| %-21s | %-48s | OK, %d |\n' "$1" "$2" $tries
    else
        failed=$((failed + 1))
        printf '| %-21s | %-48s | %d of %d are wrong, the first: %s |\n' "$1" "$2" $problems $tries "$problem"
    fi
    tries=0
    problems=0
    problem=
}

# complain TEXT: the try is wrong. The row tells the first problem.
complain() {
    problems=$((problems + 1))
    [ -n "$problem" ] || problem="$try: $1"
}

# is_part FILE WHOLE: the file isn't there, or is a beginning of the other.
is_part() {
    [ ! -e "$1" ] || head -c "$(stat -c %s "$1")" "$2" | cmp -s - "$1"
}

# log_is KIND: the log `new` is `none`, a `part` of the whole one, or `whole`, as it is without faults.
log_is() {
    case $1 in
    none) [ ! -e new ] ;;
    part) is_part new plain/new ;;
    whole) if [ -e plain/new ]; then cmp -s new plain/new; else [ ! -e new ]; fi ;;
    esac
}

# text_is TEXT: what was said is this line, or nothing where it is empty. It may be the `whole` text, as it is without
# faults, or a `part` of it.
text_is() {
    case $1 in
    whole) cmp -s said plain/said ;;
    part) is_part said plain/said ;;
    *) printf '%s' "${1:+$1
}" | cmp -s - said ;;
    esac
}

# expect TRY STATUS TEXT LOG: judges the answer, by its status, what was said, and the log.
expect() {
    try=$1
    tries=$((tries + 1))
    if [ "$status" = 124 ]; then
        complain "no answer"
    elif [ "$status" != "$2" ]; then
        complain "status $status in place of $2, '$(head -n 1 said | tr -d '\0')'"
    elif ! text_is "$3"; then
        complain "'$(head -n 1 said | tr -d '\0')' isn't '$3'"
    elif ! log_is "$4"; then
        complain "the log isn't '$4'"
    elif [ -s errors ]; then
        complain "'$(head -n 1 errors)' as an error"
    fi
}

# expect_whole TRY: judges the answer as that of a run without faults.
expect_whole() {
    expect "$1" "$plain_status" whole whole
}

# ---- runs of the program, with the words of the form that is tried

# run COMMAND..: runs the program under a command that keeps its streams. No log is there before.
run() {
    rm -f new
    timeout 30 "$@" ./tss_run "${words[@]}" >said 2>errors </dev/null
    status=$?
}

# run_failing CALL FIRST LAST HOW: runs it with failing calls.
run_failing() {
    run env LD_PRELOAD=./failing.so FAILING_CALL="$1" FAILING_FIRST="$2" FAILING_LAST="$3" FAILING_HOW="$4"
}

# Runs it without faults, keeps what it says and writes, and lists its calls.
run_plainly() {
    run env
    plain_status=$status
    rm -rf plain
    mkdir plain
    cp said plain/said
    [ -e new ] && cp new plain/new
    run env LD_PRELOAD=./failing.so FAILING_TRACE=trace
    expect_whole "with the library"
    [ -s trace ] || {
        echo "the library isn't loaded before the program's C library"
        exit 2
    }
}

# calls_of CALL: what each such call was made on, in order
calls_of() {
    sed -n "s/^$1 //p" trace
}

# makes_calls CALL..: each of these calls is made, so that it can be made to fail.
makes_calls() {
    local call
    for call; do
        grep -q "^$call " trace || complain "no $call"
    done
}

# ---- memory

# spread COUNT MOST: the numbers from 1 to COUNT, or so many of them, the first and the last among them
spread() {
    awk -v count="$1" -v most="$2" 'BEGIN {
        if (count <= most) most = count
        for (k = 0; k < most; k++) print most == 1 ? 1 : 1 + int(k * (count - 1) / (most - 1))
    }'
}

# expect_no_memory TRY NUMBER: where the words can't be had nothing is said.
expect_no_memory() {
    if [ "$2" -le "$for_words" ]; then
        expect "$1" 9 "" none
    else
        expect "$1" 9 "no memory" none
    fi
}

# memory_rows FORM MOST
memory_rows() {
    local form=$1 most=$2 requests given n
    requests=$(calls_of memory | wc -l)
    # Words of the same lengths that are no form take as much memory, and the usage line takes none.
    given=("${words[@]}")
    words=("${given[0]//?/x}" "${given[@]:1}")
    run env LD_PRELOAD=./failing.so FAILING_TRACE=trace.words
    for_words=$(grep -c '^memory' trace.words)
    words=("${given[@]}")

    for n in $(spread "$requests" "$most"); do
        run_failing memory "$n" "$n" 12
        # A request may be made again, for less. The answer is then that of a run without faults.
        if [ "$status" = "$plain_status" ]; then
            expect_whole "request $n of $requests"
        else
            expect_no_memory "request $n of $requests" "$n"
        fi
    done
    row "$form" "one request for memory is refused"

    for n in $(spread "$requests" "$most"); do
        run_failing memory "$n" 999999999 12
        expect_no_memory "request $n of $requests" "$n"
    done
    row "$form" "that one and all later ones are refused"
}

# ---- calls on files and on the output

# text_for NAME: what is said where this file can't be read
text_for() {
    case $1 in
    machine | image) echo "read $1" ;;
    *) echo "read schedule" ;;
    esac
}

# expect_failure TRY NAME: judges the answer to a call on this file that fails. All is read before a byte is written.
expect_failure() {
    case $2 in
    output) expect "$1" 8 part whole ;;
    new | "writes new") expect "$1" 8 "write log" part ;;
    *) expect "$1" 7 "$(text_for "${2#* }")" none ;;
    esac
}

# Each line: a call, how it fails, whether the answer tells it, and the row's words. Error numbers are those of Linux:
# 4 interrupted, 5 input or output, 13 no right, 24 too many files, 27 too large, 28 no room, 30 can't be written,
# 32 no reader, 122 over quota.
faults='open 13 told an open fails, no right
open 24 told an open fails, too many files
open 30 told an open fails, a disk that is read alone
open 4 untold an open is interrupted
read 5 told a read fails
read 4 untold a read is interrupted
read short untold a read is of one byte
write 5 told a write fails
write 27 told a write fails, a file too large
write 28 told a write fails, no room
write 32 told a write fails, no reader
write 122 told a write fails, over quota
write none told a write takes nothing
write full told a write is of one byte, then there is no room
write 4 untold a write is interrupted
write short untold a write is of one byte
close 5 untold a close fails
close 4 untold a close is interrupted'

# call_rows FORM
call_rows() {
    local form=$1 call how told fault n last on
    while read -r call how told fault; do
        n=0
        while read -r on; do
            n=$((n + 1))
            last=$n
            [ "$how" = full ] && last=999999999
            run_failing "$call" $n $last "$how"
            if [ "$told" = told ]; then
                expect_failure "$call $n, $on" "$on"
            else
                expect_whole "$call $n, $on"
            fi
        done < <(calls_of "$call")
        row "$form" "$fault"
    done <<<"$faults"

    for call in read write; do
        [ -n "$(calls_of $call)" ] || continue
        run_failing $call 1 999999999 short
        expect_whole "$call, all of one byte"
        run_failing $call 1 20 4
        expect_whole "$call, twenty are interrupted"
        row "$form" "all ${call}s are of one byte, or many interrupted"
    done

    try=trace
    tries=1
    [ "$(calls_of open | grep -cv '^reads \|^writes new$')" = 0 ] || complain "a file is opened to write it"
    row "$form" "files that are read are opened to read alone"
}

# ---- the output

# output_rows FORM
output_rows() {
    local requests
    requests=$(calls_of memory | wc -l)
    for output in full closed left; do
        rm -f new
        case $output in
        full) timeout 30 ./tss_run "${words[@]}" >/dev/full 2>errors </dev/null; status=$? ;;
        closed) timeout 30 ./tss_run "${words[@]}" >&- 2>errors </dev/null; status=$? ;;
        left)
            { sleep 0.1; timeout 30 ./tss_run "${words[@]}" 2>errors </dev/null; echo $? >status; } | :
            status=$(cat status)
            ;;
        esac
        : >said
        expect "the output is $output" 8 "" whole
    done
    row "$1" "the output is full, closed, left by its reader"

    rm -f new
    timeout 30 env LD_PRELOAD=./failing.so FAILING_CALL=memory FAILING_FIRST="$requests" FAILING_LAST="$requests" \
        ./tss_run "${words[@]}" >/dev/full 2>errors </dev/null
    status=$?
    : >said
    expect "the last request" 8 "" none
    row "$1" "memory is refused, and the output is full"
}

# ---- forms

# Each line: a form's name and its words. The file `half` has the first lines of the file `log`.
forms='inorder|inorder image machine
run seed|run image machine seed 3
run seed log|run image machine seed 3 log new
run given|run image machine given log
state|state image machine given half
self|self BLOCKS
self mul|self BLOCKS mul
migrate|migrate old new'

# files IMAGE MACHINE EVENTS: the files that the forms name, so many events in the half log.
files() {
    rm -f image machine log old half
    cp "$here/$1" image
    cp "$here/$2" machine
    ./tss_run run image machine seed 3 log log >said || exit 2
    tail -n +2 log >old
    head -n $(($3 + 1)) log >half
    chmod 444 image machine log old half
}

# form_rows MOST BLOCKS KIND: the rows of all forms, with so many requests for memory refused. The kind ends each name.
form_rows() {
    local form line
    while IFS='|' read -r form line; do
        form=$form$3
        read -ra words <<<"${line/BLOCKS/$2}"
        run_plainly
        makes_calls memory write
        [ "${words[0]}" = self ] || makes_calls open read close
        row "$form" "no fault"
        memory_rows "$form" "$1"
        call_rows "$form"
        output_rows "$form"
    done <<<"$forms"
}

# ---- names

# words_with PLACE NAME: a form with this name in this place
words_with() {
    case $1 in
    machine) words=(inorder image "$2") ;;
    image) words=(inorder "$2" machine) ;;
    given) words=(run image machine given "$2") ;;
    migrated) words=(migrate "$2" new) ;;
    log) words=(run image machine seed 3 log "$2") ;;
    new) words=(migrate old "$2") ;;
    esac
}

# file_for PLACE: the file that stands there in the other rows
file_for() {
    case $1 in
    given) echo log ;;
    migrated) echo old ;;
    log) echo new ;;
    *) echo "$1" ;;
    esac
}

# plain_words PLACE: the words with that file, and a run without faults
plain_words() {
    words_with "$1" "$(file_for "$1")"
    run_plainly
    tries=0
}

# try_name PLACE NAME STATUS TEXT LOG
try_name() {
    words_with "$1" "$2"
    run env
    expect "'${2::20}'" "$3" "$4" "$5"
}

read_name_rows() {
    local place name
    for place in machine image given migrated; do
        for name in nothing folder machine/x loop "$long" ""; do
            try_name $place "$name" 7 "$(text_for $place)" none
        done
        row "$place" "no file, a folder, a name that can't be"
        plain_words $place
        words_with $place pipe
        timeout 40 dd if="$(file_for $place)" of=pipe status=none &
        run env
        wait $!
        expect_whole "pipe"
        row "$place" "a pipe"
    done
    try_name machine /dev/null 4 "machine 2 main_budget" none
    try_name image /dev/null 3 "image 1" none
    try_name given /dev/null 5 "schedule short 1" none
    row "machine, image, given" "a device without bytes"
    try_name machine /dev/zero 7 "long machine" none
    try_name image /dev/zero 7 "long image" none
    try_name given /dev/zero 7 "long schedule" none
    try_name migrated /dev/zero 7 "long schedule" none
    row "all that are read" "a device that never ends"
}

written_name_rows() {
    local place name
    for place in log new; do
        plain_words $place
        for name in nothing/new folder machine/x loop "$long" ""; do
            try_name $place "$name" 8 "write log" none
        done
        row "$place" "no folder, a folder, a name that can't be"
        try_name $place /dev/full 8 "write log" none
        row "$place" "a full disk"
        try_name $place /dev/null "$plain_status" whole none
        row "$place" "a device that keeps nothing"
        words_with $place pipe
        timeout 40 cat pipe >got &
        run env
        wait $!
        mv got new
        expect_whole "pipe"
        row "$place" "a pipe that is read, and a log of one piece"
    done
}

name_rows() {
    long=$(printf 'x%.0s' {1..300})
    mkdir folder
    ln -s loop loop
    mkfifo pipe
    read_name_rows
    written_name_rows
}

# A log of several pieces through a pipe of the shell, and into a file whose size is limited.
long_log_rows() {
    plain_words log
    words_with log /dev/fd/9
    exec 9> >(cat >got)
    run env
    exec 9>&-
    wait $!
    mv got new
    expect_whole ">(cat)"
    row "log" "a pipe of the shell, and a log of several pieces"

    exec 9> >(:)
    wait $!
    run env
    exec 9>&-
    expect ">(:)" 8 "write log" none
    row "log" "a pipe of the shell that its reader has left"

    words_with log new
    run bash -c 'ulimit -f 8; trap "" XFSZ; exec "$@"' limited
    expect "8,192 bytes" 8 "write log" part
    row "log" "a limit on the size of a file"
}

# ---- rights

# plainly COMMAND..: runs a command as a user whom rights hold: as this one, or as nobody where this one is root.
plainly() {
    if [ "$(id -u)" = 0 ]; then
        setpriv --reuid=65534 --regid=65534 --clear-groups "$@"
    else
        "$@"
    fi
}

# run_in_folder FILE..: runs the program as that user. Its log is in a folder that may be written, and that has
# this file, if any, as the log.
run_in_folder() {
    rm -rf free
    mkdir -m 777 free
    [ $# = 0 ] || mv "$1" free/new
    words=("${words[@]/#new/free/new}")
    plainly timeout 30 ./tss_run "${words[@]}" >said 2>errors </dev/null
    status=$?
    rm -f new
    [ ! -e free/new ] || { mv free/new new && chmod 644 new; }
}

right_rows() {
    local form line place
    plainly ./tss_run >said 2>errors
    [ $? = 6 ] || {
        echo "rights: not tried, since a plain user can't run $work/tss_run"
        return
    }
    while IFS='|' read -r form line; do
        read -ra words <<<"${line/BLOCKS/2}"
        run_plainly
        tries=0
        run_in_folder
        expect_whole "rights 444"
        row "$form" "files that may be read and not written"
    done <<<"$forms"

    for place in machine image given migrated; do
        rm -f closed
        cp "$(file_for $place)" closed
        chmod 000 closed
        words_with $place closed
        run_in_folder
        expect "rights 000" 7 "$(text_for $place)" none
        row "$place" "a file that may not be read"
    done

    mkdir -m 555 sealed
    for place in log new; do
        plain_words $place
        printf 'before\n' >held
        chmod 222 held
        run_in_folder held
        printf 'before\n' | cat - plain/new | cmp -s - new && cp plain/new new
        expect_whole "rights 222"
        row "$place" "what the file held stays; it may not be read"
        rm -f held
        cp plain/new held
        chmod 444 held
        run_in_folder held
        expect "rights 444" 8 "write log" whole
        row "$place" "a file that may not be written"
        words_with $place sealed/new
        run_in_folder
        expect "rights 555" 8 "write log" none
        row "$place" "a folder that may not be written"
    done
}

files sums.elf small.toml 60
form_rows 999999 2 ""
name_rows
right_rows
files hashes.elf big.toml 900
form_rows 40 12 ", larger"
long_log_rows

echo "$passed passed, $failed failed"
[ $failed = 0 ]
