# shellcheck shell=sh disable=SC2154
# What ./tss, ./check and scripts/build know of the program. Whoever reads this file has set here, the folder of the
# checkout.
program=$here/crates/tss_run/out/tss_run
# Stands beside a program that was proved. It was last changed when that proof began, and names the folders with the
# code and the definitions of the crates that the program stands on.
stamp=$program.built

# Whether the program was built from the code and the definitions as they stand. A proof that changed makes it no
# older: neither the program nor what is proved of it depends on which proof was found.
is_fresh() {
    [ -x "$program" ] && [ -r "$stamp" ] && read -r folders <"$stamp" || return 1
    # (the names hold no spaces)
    # shellcheck disable=SC2086
    [ -z "$(cd "$here" && find crates.txt $folders -newer "crates/tss_run/out/tss_run.built" -print -quit 2>&1)" ]
}
