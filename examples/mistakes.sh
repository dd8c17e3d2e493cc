#!/bin/sh
# Makes each of the usual mistakes of docs/ANSWERS.md, and compares what the program says with what its table says.
# The last line is `N passed, M failed`. It ends with 0 where none failed, 1 where one did, and 2 where a package isn't
# there.
# The simulator is ../tss, or the program that TSS names.
# (the compiler's flags are several words each)
# shellcheck disable=SC2086
here=$(cd "$(dirname "$0")" && pwd) || exit 2
tss=${TSS:-$here/../tss}
page=$here/../docs/ANSWERS.md
cc=riscv64-unknown-elf-gcc
command -v $cc >/dev/null || {
    echo "$cc isn't there: install the package gcc-riscv64-unknown-elf"
    exit 2
}
work=$(mktemp -d) || exit 2
trap 'rm -rf "$work"' EXIT
cd "$work" || exit 2

cat >plain.c <<'END'
int main(void) { return 3; }
END
cat >begin.s <<'END'
.globl _start
_start: call main
    li a7, 93
    ecall
END
cp "$here/sums.c" sums.c
usual="-march=rv32i -mabi=ilp32 -mstrict-align"
flags="-std=c11 -Os -fno-tree-loop-distribute-patterns -fno-pic -I$here"
layout="-nostdlib -static -Wl,--build-id=none"
script="-T $here/task.ld"

passed=0
failed=0
# agrees NAME SAID WANTED: the first line that was said is the table's; PC and WORD stand for eight digits.
agrees() {
    pattern=$(echo "$3" | sed 's/PC/[0-9a-f]\\{8\\}/; s/WORD/[0-9a-f]\\{8\\}/')
    if ! echo "$2" | grep -q "$pattern"; then
        echo "$1: '$2' in place of '$3'"
        failed=$((failed + 1))
    elif ! grep -qF "$3" "$page"; then
        echo "$1: '$3' doesn't stand on the page"
        failed=$((failed + 1))
    else
        echo "$1: OK, $2"
        passed=$((passed + 1))
    fi
}
# says IMAGE MACHINE: the first line of the answer
says() {
    "$tss" inorder "$1" "$2" 2>&1 | head -n 1
}

big=$here/big.toml
$cc -march=rv64i -mabi=lp64 -mcmodel=medany $flags -ffreestanding $layout $script -o wide.elf begin.s plain.c
agrees "for 64 bits" "$(says wide.elf "$big")" "image 3"
$cc $usual $flags -ffreestanding -c -o object.elf sums.c
agrees "an object file" "$(says object.elf "$big")" "image 6"
$cc -march=rv32if -mabi=ilp32f $flags -ffreestanding $layout $script -o float.elf begin.s plain.c
agrees "a floating-point ABI" "$(says float.elf "$big")" "image 8"
agrees "a text" "$(says sums.c "$big")" "image 2"
: >empty
agrees "an empty file" "$(says empty "$big")" "image 1"
agrees "words in each other's place" "$(says "$here/small.toml" "$here/exit7.elf")" "machine 1"
agrees "no image" "$(says nothing.elf "$big")" "read image"
agrees "no machine" "$(says "$here/exit7.elf" nothing.toml)" "read machine"
$cc -march=rv32ic -mabi=ilp32 -mstrict-align $flags -ffreestanding $layout $script -o small.elf "$here/start.c" sums.c -lgcc
agrees "compressed code" "$(says small.elf "$big")" "end main-trap PC 2 WORD"
$cc $usual $flags -ffreestanding $layout -o placed.elf "$here/start.c" sums.c -lgcc
agrees "the linker's own layout" "$(says placed.elf "$big")" "end refused 7 PC"
$cc $usual $flags -ffreestanding $layout $script -o linux.elf begin.s plain.c
agrees "a Linux program's exit" "$(says linux.elf "$big")" "end main-trap PC 10 0000005d"
$cc $usual $flags -ffreestanding -DTSS_PLAIN $layout $script -o write.elf "$here/start.c" sums.c -lgcc
agrees "a Linux program's write" "$(says write.elf "$big")" ".. 10 00000040"
agrees "no -ffreestanding" "$($cc $usual $flags $layout $script -o hosted.elf "$here/start.c" sums.c -lgcc 2>&1 | grep fatal)" \
    "stdint.h: No such file or directory"
echo "$passed passed, $failed failed"
[ $failed = 0 ]
