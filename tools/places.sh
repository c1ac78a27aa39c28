#!/bin/sh
# Lists the places that docs/DESIGN-PASS.md counts, point by point, with how many there are.
cd "$(dirname "$0")/.." || exit 1
src='crates/*/src/*.rt'
show() { printf '== %s: %s\n' "$1" "$(printf '%s' "$2" | grep -c .)"; [ -n "$2" ] && printf '%s\n' "$2"; }

show '1 enums' "$(grep -nE '^(pub(\(crate\))? )?enum' $src)"
show '1 failures told by an Option in Ok' "$(grep -nE 'Result<Option<(u16|Place)>' $src)"
show '1 lets that hand on a None' "$(grep -nE -A1 'else \{$' $src | grep -E 'return None;')"
show '3 loops over a range' "$(grep -nE 'for [a-z_]+ in [^{]*\.\.' $src)"
show '3 while and loop' "$(grep -nE '^ *(.[a-z]+: )?(while|loop)\b' $src)"
show '4 conversions and printing' "$(grep -nE 'fn (code|letter|number|places|bytes|[a-z]+_bytes|tell_[a-z]+|write_[a-z]+|[a-z]+_of|is_question|machine|judging_of)[(<]' $src)"
show '5 clauses that stand three times or more' "$(grep -hoE '^ *(requires|ensures) ?[a-z_]* ?\{.*\}' $src | sed -E 's/^ *(requires|ensures) ?[a-z_]* ?//' | sort | uniq -c | sort -rn | awk '$1 >= 3')"
show '5 functions of more than five parameters' "$(awk 'FNR==1{f=0} /fn [a-z_]+.*\($/{n=$0; f=1; c=0; next} f&&/^ *\) /{if(c>5)print FILENAME": "n" "c; f=0} f{c++}' $src)"
show '6 arrays, tables and indexes of indexes' "$(grep -nE '\[u16; 40\]|Vec<bool>|Vec<usize>|\.of\[[a-z_.]+( as usize)?\] as usize \+' $src)"
show '7 dyn, pointers to functions' "$(grep -nE '\bdyn |: fn\(' $src)"
show '8 answers' "$(find crates -path '*proofs*' -name Answers.antt -not -path '*/out/*' | xargs grep -nE '^pub [^ ]+ : goal' )" | head -1
show '8 parts of parts of a tuple' "$(grep -rnE '\.1\.1\.1' crates/*/proofs --include=*.antt | cut -c1-80)" | head -1
