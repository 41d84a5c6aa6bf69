#!/bin/sh
# Misuses of sheets that must not build. Each NAME.txt is a small library over the crate `sheet`. Its first
# line says which error the compiler must print for it ('// expect: error[..]: ..'), or that it must be proved.
# Each is checked in a copy of the crates that it needs, since no crate of the repository may hold code that
# does not build. Prints a line for each case, 'ok ..' or 'not ok ..'; the exit status is 1 if one is not ok.
set -u
here=$(cd "$(dirname "$0")" && pwd -P)
root=$(cd "$here/../.." && pwd -P)
work=$(mktemp -d) || exit 2
trap 'rm -rf "$work"' EXIT
mkdir -p "$work/crates/misuse/src" || exit 2
for crate in rules book text sheet; do
    mkdir "$work/crates/$crate" || exit 2
    cp -R "$root/crates/$crate/src" "$root/crates/$crate/specs" "$root/crates/$crate/proofs" "$work/crates/$crate/" || exit 2
    grep "^$crate:" "$root/crates.txt" >>"$work/crates.txt" || exit 2
done
echo 'misuse: rules book text sheet' >>"$work/crates.txt"
bad=0
for case in control apply_unchecked apply_twice forge copy let_go; do
    cp "$here/$case.txt" "$work/crates/misuse/src/lib.rt" || exit 2
    want=$(sed -n '1s|^// expect: ||p' "$here/$case.txt")
    (cd "$work/crates/misuse" && rt check) >"$work/log" 2>&1
    status=$?
    if [ "$want" = proved ]; then
        if [ "$status" -eq 0 ] && grep -q '^logic=proved' "$work/log"; then
            echo "ok misuse $case: proved, as it must be"
            continue
        fi
    elif [ "$status" -eq 1 ] && ! grep -q '^logic=not-proved' "$work/log" &&
        [ "$(grep -c ': error' "$work/log")" -eq "$(grep -cF ": $want" "$work/log")" ] &&
        grep -F ": $want" "$work/log" | grep -qF 'src/lib.rt:'; then
        echo "ok misuse $case: refused by the compiler, as it must be: $want"
        continue
    fi
    echo "not ok misuse $case (status $status), expected: $want"
    tail -n 20 "$work/log"
    bad=1
done
exit "$bad"
