#!/usr/bin/env bash
# Lists the places in src/ that read like an older Rattle, by the points of docs/DESIGN-PASS.md, and counts
# them: what a search by text can find. Tests are left out. usage: bash tools/places.sh [-l], -l to list them.
set -u
cd "$(dirname "$0")/.." || exit 2
files=$(find crates -path '*/src/*' -name '*.rt' ! -name tests.rt ! -path '*/out/*' | sort)

# count NAME PATTERN: the lines of src/, without test modules, that the pattern finds.
count() {
    local found
    found=$(awk 'FNR == 1 { test = 0 } /^#\[cfg\(test\)\]/ { getline; test = ($0 ~ /\{$/) } !test { print FILENAME ":" FNR ":" $0 }' $files | grep -E "^[^:]*:[0-9]*:$2" | grep -vE '^[^:]*:[0-9]*: *//')
    printf '%4d  %s\n' "$([ -n "$found" ] && wc -l <<<"$found" || echo 0)" "$1"
    [ "${list:-}" = -l ] && [ -n "$found" ] && sed 's/^/          /' <<<"$found"
}
list=${1:-}

echo "1 numbers and flags for kinds, refusals and values; matches that only pass None or Err on"
count "numbers by a match (a kind, a type, a refusal)" '.*[A-Z][A-Za-z]*::[A-Z][A-Za-z]* => [0-9]+,$'
count "kinds or types from a number, as an Option" '.*fn from_number\('
count "types held as numbers" '.*numbers: \[u8; 16\]'
count "a number that says nothing as a result" '.*\) -> u8$|.*fn [a-z_]+_stands?\(\) -> u8'
count "arms that only pass None or Err on" '.*(None => None|None => Err\(|Err\([a-z]+\) => Err\(|Err\(_\) => false|None => false)'
count "if let or let-else that only passes a refusal on" '.*(if let Err\([a-z]+\) = |= [A-Za-z:_]+\(.*\) else \{$)'
echo "2 twins: found by reading, see docs/DESIGN-PASS.md"
count "matches that pick a field by type" '.*ItemType::One => (self|[a-z_]+)\.one'
echo "3 loops"
count "for with a range" '.*for [a-z_]+ in \(?[0-9a-z_]+\.\.'
count "while" ' *(.[a-z]+: )?while '
echo "4 equality, conversion and printing by hand"
count "comparisons of the insides of two values" '.*\.(get|number)\(\) (==|!=|<=|<|>) '
count "conversions by a function of their own" '.*fn (from_[a-z_]+|of)\([a-z]+: '
count "values printed by hand" '.*let \(?[a-z_, ]+\)? = .*\.(get|number|units)\(\)'
echo "5 facts in three or more contracts"
awk 'FNR == 1 { test = 0 } { print }' $files | grep -oE '^ *(requires|ensures) *[a-z_]* *\{.*\}$' | sed -E 's/^ *(requires|ensures) *[a-z_]* *\{ ?//; s/ ?\}$//' | sort | uniq -c | sort -rn | awk '$1 >= 3'
echo "6 buffers and searches"
count "arrays with a length or a count beside them" ' *(pub )?(count|len|end): usize,'
count "searches by index" '.*if self\.[a-z]+\[[a-z]+\]\.'
count "struct fields that are arrays" ' *(pub )?[a-z]+: \[.*; [A-Z0-9_]+\],'
echo "7 switches on which step to run"
count "types by Fn, dyn or a function pointer" '.*(\bFn(Once|Mut)?\(|dyn |: fn\()'
count "matches on the layers of a pile" '.*match layers? \{'
echo "8 proofs"
printf '%4d  answers\n' "$(find crates -path '*/proofs/*' ! -path '*/out/*' -name Answers.antt | wc -l)"
printf '%4d  invariants\n' "$(find crates -path '*/proofs/*' ! -path '*/out/*' -name Invariants.antt | wc -l)"
printf '%4d  lines of proofs/\n' "$(find crates -path '*/proofs/*' ! -path '*/out/*' -name '*.antt' -print0 | xargs -0 cat | wc -l)"
