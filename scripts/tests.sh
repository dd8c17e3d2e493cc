#!/bin/bash
# Tries ./tss and scripts/build on a small checkout, with stand-ins for rt and for the program: what is built when, by
# several calls at once and after a build that failed or was cut off, and what is said at a terminal.
# The last line is `N passed, M failed`; it ends with 0 where none failed, 1 where one did.
here=$(cd "$(dirname "$0")/.." && pwd) || exit 2
work=$(mktemp -d) || exit 2
trap 'rm -rf "$work"' EXIT
PATH=$work/bin:$PATH
unset TSS_BUILT RT_JOBS

passed=0 failed=0
# agrees NAME SAID WANTED
agrees() {
    if [ "$2" = "$3" ]; then
        echo "$1: OK"
        passed=$((passed + 1))
    else
        echo "$1: '$2' in place of '$3'"
        failed=$((failed + 1))
    fi
}

# The checkout: a program over two libraries, of which one uses the other, and a crate that it doesn't use.
mkdir -p "$work/bin" "$work/box/crates" && cd "$work/box" || exit 2
cp -r "$here/tss" "$here/scripts" .
printf 'low:\nhigh: low # a remark\nbeside: low\ntss_run: high std\n' >crates.txt
for name in low high beside tss_run; do
    mkdir -p crates/$name/src crates/$name/proofs
    echo "// $name" >crates/$name/src/lib.rt
    echo "-- $name" >crates/$name/proofs/Lib.antt
done

# rt: makes a library where there is none of the crate's text, or the program, and lists what it made in the file `made`.
# It takes half a second for each, for the crate that the file `holds` names as long as it does, and fails for the crate
# that `fails` names.
cat >"$work/bin/rt" <<END
#!/bin/sh
name=\${PWD##*/}
text=\$(cat ../*/src/* | cksum)
[ "\$(cat $work/fails 2>/dev/null)" != \$name ] || { echo no proof; exit 1; }
[ "\$1" = run ] || [ "\$(cat out/rlib/stamp 2>/dev/null)" != "\$text" ] || exit 0
sleep 0.5
while [ "\$(cat $work/holds 2>/dev/null)" = \$name ]; do sleep 0.1; done
echo \$name >>$work/made
[ "\$1" = lib ] || { cp $work/program out/tss_run && exec out/tss_run; }
mkdir -p out/rlib && echo "\$text" >out/rlib/stamp
END
# the program: says its words; "ends N" ends with that status, and "lasts" takes five seconds
cat >"$work/program" <<'END'
#!/bin/sh
[ $# -gt 0 ] || exit 6
[ "$1" != lasts ] || sleep 5
echo "said $*"
[ "$1" != ends ] || exit "$2"
END
chmod +x "$work/bin/rt" "$work/program"
# What rt made since this was last asked, each crate once.
made() {
    sort "$work/made" 2>/dev/null | uniq -c | awk '{ printf "%s%s", $2, ($1 > 1 ? " twice " : " ") }'
    rm -f "$work/made"
}

# ---- words that need no program

for word in --help -h help; do
    ./tss $word >said
    agrees "$word" "$? $(head -c 6 said)" "0 usage:"
done
./tss >said
agrees "no words" "$? $(head -c 6 said)" "6 usage:"
agrees "nothing is built for these" "$(made)" ""

# ---- builds

echo low >"$work/holds"
for call in 1 2 3 4 5 6 7 8; do
    ./tss words >"$work/said.$call" 2>"$work/errors.$call" &
done
for ((turn = 0; turn < 600; turn++)); do
    [ "$(cat "$work"/errors.* | grep -c waiting)" -lt 7 ] || break
    sleep 0.1
done
rm "$work/holds"
wait
agrees "eight first calls build once" "$(made)" "high low tss_run "
agrees "seven of them say that they wait" "$(cat "$work"/errors.* | grep -c waiting)" 7
agrees "all eight answer" "$(cat "$work"/said.* | grep -c '^said words$')" 8
sleep 1
agrees "a later call says no more" "$(./tss words 2>&1)" "said words"
echo "-- more" >>crates/high/proofs/Lib.antt
echo "// more" >>crates/beside/src/lib.rt
agrees "a proof that changed, and a crate that isn't used" "$(./tss words 2>&1) $(made)" "said words "
echo "// more" >>crates/high/src/lib.rt
./tss words >said 2>errors
agrees "a crate that changed, and what stands on it" "$(cat said) $(made)" "said words high tss_run "
mkdir "$work/elsewhere"
ln -s "$work/box/tss" "$work/elsewhere/link"
touch crates.txt
agrees "through a link, from another folder" "$(cd "$work/elsewhere" && ./link words 2>/dev/null) $(made)" "said words tss_run "

echo high >"$work/fails"
echo "// more" >>crates/low/src/lib.rt
./tss words >said 2>errors
agrees "a build that fails" "$? $(cat said) $(grep -c "high was not proved" errors)" "70  1"
rm "$work/fails"
made >/dev/null
./tss words >said 2>errors
agrees "and then goes on" "$? $(cat said) $(made)" "0 said words high tss_run "

echo high >"$work/holds"
echo "// more" >>crates/low/src/lib.rt
./tss words >said 2>errors &
until grep -q "low: proved" errors; do sleep 0.1; done
kill $!
wait $!
agrees "a build that is cut off" "$? $(cat said) $(ls -d crates/tss_run/out/build 2>/dev/null) $(made)" "70   low "
rm "$work/holds"
./tss words >said 2>errors
agrees "goes on, too" "$? $(cat said) $(made)" "0 said words high tss_run "

sleep 1
touch "$work/began"
cp "$work/program" crates/tss_run/out/tss_run
sleep 1
echo "// more" >>crates/low/src/lib.rt
scripts/build taken "$work/began"
./tss words >said 2>errors
agrees "the gate's program, and a later change" "$(cat said) $(made)" "said words high low tss_run "
touch "$work/began"
scripts/build taken "$work/began"
agrees "the gate's program" "$(./tss words 2>&1) $(made)" "said words "

# ---- what is said at a terminal

# at_terminal WORDS..: the output, and the errors at a terminal in the file errors
at_terminal() {
    script -qec "./tss $* >said" errors </dev/null >/dev/null
    echo "$? $(cat said)"
}
if script -qec true /dev/null </dev/null >/dev/null 2>&1; then
    agrees "a refused image at a terminal" "$(at_terminal ends 3) $(grep -c "status 3: the image is not accepted.*ANSWERS.md" errors)" \
        "3 said ends 3 1"
    agrees "an end at a terminal" "$(at_terminal ends 1) $(grep -c tss: errors)" "1 said ends 1 0"
    agrees "a long run at a terminal" "$(at_terminal lasts) $(grep -c "still running (0:02)" errors)" "0 said lasts 1"
else
    echo "at a terminal: not tried, since none is to be had here"
fi
./tss ends 3 >said 2>errors
agrees "a refused image, no terminal" "$? $(cat said errors)" "3 said ends 3"
agrees "a long run, no terminal" "$(./tss lasts 2>&1)" "said lasts"

echo "$passed passed, $failed failed"
[ $failed = 0 ]
