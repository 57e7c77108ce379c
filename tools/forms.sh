#!/usr/bin/env bash
# Lists the lines of the sources that the points of docs/DESIGN-PASS.md are counted from: forms.sh COMMIT [POINT]
set -eu
commit=$1
sources='crates/*/src/*.rt'

list() {
    git grep -nE "$1" "$commit" -- "$sources" | sed "s/^$commit://" | grep -vE '^[^:]*:[0-9]+: *//' || true
}

point_1() { list '\benum [A-Z]|^ +(pub(\(crate\))? )?[a-z_]+: bool,$|\.held\(bits\) (==|<=) |Result<Option<'; }
point_2() { git grep -hoE '\bfn [a-z_]+' "$commit" -- "$sources" | sort | uniq -d | while read -r name; do list "\\b$name\\b"; done; }
point_3() { list '\bfor [a-z_]+ in [^{]*\.\.|\bwhile |\+= 1;'; }
point_4() { list '^impl.* (fmt::Display|From<.*>|TryFrom<.*>|PartialEq|PartialOrd|Ord|Clone) for |\bfn (digit|fold|reason|write_(number|field|first|verdict)|(un)?packed|checked|bytes_of)\(|\bfn new\((choice|number|bytes): '; }
point_5() { list '\brequires( [a-z_]+)? \{|\b(plan: &Plan|exchange: &Exchange|pairs: &(mut )?\[Pair\]|statement: &mut Statement|modulus: u32),?$'; }
point_6() { list '^ +[a-z_]+: (\[[^]]+; [A-Z0-9]+\]|Vec<)|^ +(start|end|count|told): (usize|u32),|\blet mut (found|spots|list|units|unbilled|symbols|slots) = |(start|end|count): (usize|u32)[,)]'; }
point_7() { list '\bmatch (self|verdict)\b|\b[a-z]+: bool[,)]|\bdyn |\bimpl Fn|: Fn(Once|Mut)?\('; }
point_8() { git ls-tree -r --name-only "$commit" -- crates | grep -E '/proofs/.*\.antt$' | while read -r file; do echo "$(git show "$commit:$file" | wc -l) $file"; done; }

for point in ${2:-1 2 3 4 5 6 7 8}; do
    echo "== point $point: $("point_$point" | wc -l) lines"
    "point_$point"
done
