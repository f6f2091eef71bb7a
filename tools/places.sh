# Lists places that read like an older language, by kind: places.sh COMMIT, in the repository. A row is a place to look, not a verdict.
C=$1; P='crates/*/src/*.rt'
g() { git grep -nE "$1" $C -- "$P" | sed "s/^[^:]*://"; }
echo "== 1"; g '^ *(pub(\(crate\))? )?enum |return Err\((Refusal::Unlawful|Fault::Unknown)\)|Err\(_\) =>|, or 0\.$|and 0 without'
echo "== 2"; git grep -hoE '\bfn [a-z_0-9]+|\bTurned[A-Z][A-Za-z]+,' $C -- "$P" | sort | uniq -cd
echo "== 3"; g 'in 0\.\.[a-z]|\bwhile |\bloop \{|\+= 1|for \(?[a-z_, ]+\)? in |\[number\]|\[0\]\.'
echo "== 4"; g 'let unused|fn (number|copied|restore|verdict_word|write_cells|pile_named|cell|lot|new|eq|cmp|clone|default|minutes|scale)\(|fn from\(|fn fmt<|fn from_str\('
echo "== 5"; git grep -hE '^ *(requires|ensures)' $C -- "$P" | grep -oE '\b(LawfulLot|Lawful|Rising|Ascending|Small|Profiles|CutAtByte|InWeek|horizon|max_lots|max_points|len ≡ length|split_pattern|length loads)\b' | sort | uniq -c
echo "== 6"; g '^ *(pub(\(crate\))? )?len: usize|^ *(pub(\(crate\))? )?[a-z_]+: (&.a mut )?\[|let mut [a-z_]+ = \[|-> \[[A-Za-z0-9]+; |let mut (low|high) ='
echo "== 7"; g '=> .*(apply|measure|overflow|rule)\(|\|&?[a-z_, ]+\| '
echo "== 8"; for c in lots elastic rule rules plan console; do n=$(git ls-tree -r --name-only $C crates/$c/proofs crates/$c/specs/Laws crates/$c/specs/Laws.antt 2>/dev/null | grep -c antt$); l=$(git ls-tree -r --name-only $C crates/$c/proofs crates/$c/specs/Laws | grep antt$ | xargs -I{} git show $C:{} | wc -l); a=$(git ls-tree -r --name-only $C crates/$c/proofs | grep Answers.antt | xargs -I{} git show $C:{} | grep -c '^pub .*: goal'); echo "$c: $n files, $l lines, $a answers"; done
