#!/bin/sh
# Lists the places in src/ that docs/DESIGN-PASS.md speaks of, at a commit (HEAD if none is given), a count for each search first.
# A row is a place to look at: the page says which of them are meant.
at=${1:-HEAD}
search() {
    name=$1
    shift
    found=$(git grep -nE "$@" "$at" -- 'crates/*/src/*.rt' | sed "s|^$at:||")
    echo "== $name: $(printf '%s' "$found" | grep -c .)"
    [ -z "$found" ] || printf '%s\n' "$found"
}
search '1 enums' -e '^[[:space:]]*(pub(\(crate\))? )?enum '
search '1 flags handed on or kept beside values' -e '(^|[(, ])[a-z_]+: bool\b'
search '1 numbers for kinds, refusals or lines' -e '-> (u8|\(.*\bu8\b.*\)|\[u8; [0-9]+\])' -e 'Result<.*, usize>' -e '= \(usize, \[u8'
search '3 ranges, while and loop' -e 'for [a-z_]+ in [^{]*\.\.' -e '^[[:space:]]*(while|loop)\b' -e '\.enumerate\(\) \{'
search '3 a loop that only looks for something' -e '^[[:space:]]*for [a-z_&]+ in [a-z_]+ \{'
search '4 comparisons of the numbers inside quantities' -e '\.(value|blocks) (<|>|<=|>=|==) '
search '4 equality, conversion and printing by hand' -e 'fn (same|equal|name|number|done|sealed|stage|told|print_[a-z_]+)\b' -e '\.make\('
search '6 arrays in structs' -e '^[[:space:]]*(pub(\(crate\))? )?[a-z_]+: \[.*; [A-Z0-9]+\],$'
search '6 a length or a count beside them' -e '^[[:space:]]*(pub(\(crate\))? )?(count|filled|len): usize,$'
search '7 a step chosen by a value' -e 'match (call|\(&self.phase, call\))' -e 'fn [a-z]+_below'
echo "== 5 facts that stand in three contracts or more"
git grep -hoE '(requires|ensures) ([a-z_]+ )?\{.*\}' "$at" -- 'crates/*/src/*.rt' | sed -E 's/^(requires|ensures) ([a-z_]+ )?//' | sort | uniq -c | sort -rn | awk '$1 > 2'
echo "== 8 proof text: files of answers, of invariants, lines of both, lines of lemmas"
git ls-tree -r --name-only "$at" crates | grep -c '/Answers.antt$'
git ls-tree -r --name-only "$at" crates | grep -c '/Invariants.antt$'
git ls-tree -r --name-only "$at" crates | grep -E '/(Answers|Invariants|Proof).antt$' | while read -r f; do git show "$at:$f"; done | wc -l
git ls-tree -r --name-only "$at" crates | grep -E '/proofs/[A-Za-z]+.antt$' | while read -r f; do git show "$at:$f"; done | wc -l
