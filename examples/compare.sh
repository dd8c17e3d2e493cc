#!/bin/sh
# Compares each program with itself: the image on the simulator, in program order, and the plain form under
# qemu-riscv32. Both must print the same bytes and exit with the same status, of which Linux keeps eight bits.
# Then the image on the unit machine, under several seeds and machines: but for its events and peaks each report must be
# that of program order.
# The last line is `N passed, M failed`, of programs. It ends with 0 where none failed, 1 where one did, and 2 where a
# package isn't there or a build fails.
# The simulator is ../tss, or the program that TSS names.
cd "$(dirname "$0")" || exit 2
tss=${TSS:-../tss}
missing=0
need() {
    command -v "$1" >/dev/null && return
    echo "$1 isn't there: install the package $2"
    missing=1
}
need make make
need riscv64-unknown-elf-gcc gcc-riscv64-unknown-elf
need qemu-riscv32 qemu-user
[ $missing = 0 ] || exit 2
make -s plain || { echo "building the plain forms failed"; exit 2; }
sed 's/^window .*/window = 8/' big.toml >out/window.toml

# runs_alike IMAGE: whether each run on the unit machine has the status and the report of program order, without peaks.
runs_alike() {
    for machine in small.toml big.toml out/window.toml; do
        "$tss" inorder "$1" "$machine" >out/one.report
        wanted=$?
        for seed in 0 1 7 99; do
            "$tss" run "$1" "$machine" seed $seed >out/two.report
            [ $? = $wanted ] || return 1
            grep -av '^events \|^peak ' out/two.report | cmp -s out/one.report - || return 1
        done
    done
}

passed=0
failed=0
for plain in out/*.plain; do
    name=$(basename "$plain" .plain)
    image=$name.elf
    [ -f "$image" ] || image=out/$name.elf
    qemu-riscv32 "$plain" >"out/$name.expected"
    status=$?
    "$tss" inorder "$image" big.toml >"out/$name.report"
    ending=$(sed -n 1p "out/$name.report")
    length=$(sed -n '3s/^output //p' "out/$name.report")
    tail -n +4 "out/$name.report" | head -c "${length:-0}" >"out/$name.printed"
    what=
    case $ending in
    "end exit "*) [ $((${ending#end exit } % 256)) = $status ] || what="$ending, status $status" ;;
    *) what="the ending is '$ending'" ;;
    esac
    cmp -s "out/$name.expected" "out/$name.printed" || what="$what${what:+; }the output"
    runs_alike "$image" || what="$what${what:+; }a run on $machine under seed $seed"
    if [ -z "$what" ]; then
        echo "$name: OK, status $status, $length bytes"
        passed=$((passed + 1))
    else
        echo "$name differs: $what"
        failed=$((failed + 1))
    fi
done
echo "$passed passed, $failed failed"
[ $failed = 0 ]
