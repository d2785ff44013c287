#!/bin/sh
# Lists the lines of src/ that the design pass read, point by point: tools/places.sh [COMMIT]. See docs/DESIGN-PASS.md.
set -eu
commit=${1:-HEAD}
found() { git grep -nE "$1" "$commit" -- 'crates/*/src/*.rt' || true; }
point() { printf '\n== %s\n' "$1"; }

point '1a enums, to be read for the shape of Option or Result'
found '^ *(pub(\(crate\))? )?enum '
point '1b a number that stands for something else, by its comment'
found '//.*(\b0 (where|for|past|without|stands)|[Zz]eros? (where|stands)|or 0\b|or 8\b|zeros\b|, 0 |\b99\b|\b1 for\b|are 0\b)'
point '1c a number as a code'
found '=> (0|1|98|99|998|999)[,;]?$|=> \(99|\[99|\((Question|u32), ?u32\)|(No|Bad|NotSaved)\(u32\)'
point '1d a match where ? or a method of Result does'
found 'Err\(\w+\) => (return )?Err\(|Err\(_\) => unreachable|Err\(_\) => return|return Err\(.*Question::'
point '2 names of functions and types that stand in more than one file'
git grep -hE '^ *(pub(\(crate\))? )?(fn|struct|enum) \w+' "$commit" -- 'crates/*/src/*.rt' |
    sed -E 's/.*(fn|struct|enum) (\w+).*/\2/' | sort | uniq -c | awk '$1 > 1 { print $2 ": " $1 }'
point '3 loops over a range of indices, while loops, and indices beside an iterator'
found '^ *for \w+ in [^{]*\.\.|^ *while |\.get\(i\)'
point '4 equality, conversion and printing by hand'
found 'fn (same|numbers|print_\w+|scheme\w*|flags|kind\w*|ground\w*|verdict_at|spacing_of|\w+_or_no)\(|let number = |(question|ground)\.number\(\)|matches!\('
point '5 clauses that stand in two contracts or more'
git grep -hoE '(requires|ensures)( \w+)? \{[^}]*\}' "$commit" -- 'crates/*/src/*.rt' |
    sed -E 's/(requires|ensures) ?\w* ?\{/{/' | sort | uniq -c | awk '$1 > 1' | sort -rn
point '6 tables as bare arrays, and places in a buffer kept by hand'
found 'const \w+: \[+(u32|u64|\(u32)|\bat \+ |\bat: usize|\.\. ?at\b'
point '7 a step chosen by a name, tables of functions, dyn'
found 'match (name|kind|question|order)|[^_]fn\(|dyn |Box<'
point '8 answers in proofs/, and lines of proof, by crate'
for crate in $(git ls-tree --name-only "$commit" crates/); do
    files=$(git ls-tree -r --name-only "$commit" "$crate/proofs" 2>/dev/null | grep 'antt$' || true)
    [ -n "$files" ] || continue
    answers=$(for f in $files; do git show "$commit:$f" | grep -c 'goal\.' || true; done | awk '{ n += $1 } END { print n }')
    lines=$(for f in $files; do git show "$commit:$f"; done | wc -l)
    echo "$crate: $answers answers, $lines lines"
done
