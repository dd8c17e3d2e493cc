#!/bin/sh
# Prints what a simulated instruction costs the host, in instructions of the host, by callgrind; what many tiny tasks
# and many named objects cost; and what the workload costs on the unit machine. Each program of speed/ runs with two
# counts of turns, so that what a run costs before its loop doesn't count.
# The simulator is the program that ./tss builds, or the one that TSS names. It ends with 0, or with 2 where a package
# isn't there or a build fails.
cd "$(dirname "$0")" || exit 2
tss=${TSS:-../crates/tss_run/out/tss_run}
missing=0
need() {
    command -v "$1" >/dev/null && return
    echo "$1 isn't there: install the package $2"
    missing=1
}
need riscv64-unknown-elf-gcc gcc-riscv64-unknown-elf
need valgrind valgrind
need make make
[ -x "$tss" ] || { echo "$tss isn't there: ../tss builds it"; missing=1; }
[ $missing = 0 ] || exit 2
mkdir -p out

# build PROGRAM COUNT IMAGE [RISING]
build() {
    riscv64-unknown-elf-gcc -march=rv32im -mabi=ilp32 -nostdlib -static -T task.ld -Wl,--build-id=none -s \
        -Wl,-z,max-page-size=64 "-Wa,--defsym,COUNT=$2" "-Wa,--defsym,RISING=${4:-0}" -o "out/$3.elf" "speed/$1.s" ||
        { echo "building $1 failed"; exit 2; }
}

# The host's instructions for an image.
host() {
    valgrind --tool=callgrind --callgrind-out-file=/dev/null "$tss" inorder "out/$1.elf" big.toml 2>&1 >/dev/null |
        sed -n 's/.*Collected : //p'
}

# The seconds for an image, the least of three runs.
seconds() {
    for _ in 1 2 3; do
        from=$(date +%s.%N)
        "$tss" inorder "out/$1.elf" big.toml >/dev/null
        echo "$(date +%s.%N) $from"
    done | awk '{ t = $1 - $2 } NR == 1 || t < least { least = t } END { printf "%.3f\n", least }'
}

# The least value of a key of the machine with which an image exits.
least() {
    low=0
    high=100000000
    while [ $((high - low)) -gt 1 ]; do
        middle=$(((low + high) / 2))
        sed "s/^$2 .*/$2 = $middle/" big.toml >out/least.toml
        case $("$tss" inorder "out/$1.elf" out/least.toml | head -n 1) in
        "end exit 0") high=$middle ;;
        *) low=$middle ;;
        esac
    done
    echo "$high"
}

# row TEXT PROGRAM INSTRUCTIONS: instructions are those of one turn.
row() {
    build "$2" 20000 one
    build "$2" 40000 two
    echo "$(host one) $(host two) $3" | awk -v text="$1" '{ printf "| %s | %.1f |\n", text, ($2 - $1) / (20000 * $3) }'
}

echo '| program | host instructions for each simulated one |'
echo '|---|---|'
row 'a loop of ADDI and BNE' loop 2
make -s -B out/long.elf BLOCKS=2 && cp out/long.elf out/one.elf && make -s -B out/long.elf BLOCKS=3 || exit 2
cp out/long.elf out/two.elf
simulated=$(($(least two main_budget) + 27 * $(least two task_budget) - $(least one main_budget) - 8 * $(least one task_budget)))
echo "$(host one) $(host two) $simulated" | awk '{ printf "| examples/matrix.c | %.1f |\n", ($2 - $1) / $3 }'
row 'loads and stores of main, one range' memory 8
row 'a task with seven operands, loads and stores' operands 32
row 'three ranges in turn' ranges 11
row 'main with 4,096 objects named' named 11
echo
echo '| program | host instructions | seconds |'
echo '|---|---|---|'
build tasks 65536 tasks
echo "| 65,536 tiny tasks, in all | $(host tasks) | $(seconds tasks) |"
build names 65534 rising 1
echo "| 65,534 objects named at rising addresses | $(host rising) | $(seconds rising) |"
build names 65534 falling 0
echo "| 65,534 objects named at falling addresses | $(host falling) | $(seconds falling) |"
echo
echo '| on the unit machine | host instructions |'
echo '|---|---|'
events=$("$tss" self 40 | sed -n 's/^events //p')
counted=$(valgrind --tool=callgrind --callgrind-out-file=/dev/null "$tss" self 40 2>&1 >/dev/null |
    sed -n 's/.*Collected : //p')
echo "| self 40, $events events | $counted |"

# grown STATIONS SLOTS BANKS PLACES BUFFERS: what an event costs where tasks fill the tables of a machine.
grown() {
    sed -e "s/^object_bytes .*/object_bytes = 64/;s/^stations .*/stations = $1/;s/^slots .*/slots = $2/" \
        -e "s/^workers .*/workers = 2/;s/^banks .*/banks = $3/;s/^entries .*/entries = $4/" \
        -e "s/^versions .*/versions = $4/;s/^buffers .*/buffers = $5/;s/^quantum .*/quantum = 16/" big.toml >out/grown.toml
    build tables 1000 one
    build tables 3000 two
    for image in one two; do
        valgrind --tool=callgrind --callgrind-out-file=/dev/null "$tss" run out/$image.elf out/grown.toml seed 1 2>&1 |
            sed -n 's/^events //p;s/.*Collected : //p'
    done | tr '\n' ' ' | awk -v slots=$(($1 * $2)) -v places=$(($3 * $4)) \
        '{ printf "| %d and %d | %d |\n", slots, places, ($4 - $2) / ($3 - $1) }'
}
echo
echo '| slots and places of versions | host instructions an event |'
echo '|---|---|'
grown 1 8 2 8 8
grown 2 16 8 16 8
grown 4 32 16 64 16
grown 16 64 64 256 64
