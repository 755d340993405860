#!/bin/sh
# Counts places of older forms in src/ and proofs/ at a commit: sh tools/places.sh [-l] COMMIT. With -l each place is listed.
# docs/DESIGN-PASS.md says what each row is about, and what of it is no place.
list=no
[ "$1" = -l ] && { list=yes; shift; }
commit=${1:-HEAD}

# row NAME WHERE PATTERN [NOT]: the lines of WHERE that match PATTERN and not NOT
row() {
    found=$(git grep -hnE "$3" "$commit" -- "$2" | grep -vE "${4:-^$}" | wc -l)
    printf '%-52s %s\n' "$1" "$found"
    [ $list = yes ] && git grep -nE "$3" "$commit" -- "$2" | grep -vE "${4:-^$}" | sed "s/^[^:]*:/    /"
}

src='crates/*/src/*.rt'
answers='crates/*/proofs/*Answers.antt'
row '1a numbers as answers of a judgement' "$src" '\) -> (Result<\(\), )?u8' 'fn number\(self\)'
row '1b numbers for kinds, clauses, marks, or none' "$src" '(clause|kind|mark|overtaking): u(8|32)'
row '1c a number that stands for none' "$src" '(= |< |return )u32::MAX'
row '1d a place as an error, a Result in a Result' "$src" 'Result<(\(\)|u32|usize), u(size|32)>|Result<Result<|Result<Option<Vec'
row '1e a Result or Option passed on by a match' "$src" '(Ok|Err|Some)\(\w*\) => (Ok|Err|Some|return Err|false|true|Answer|\{\})|None => (Err|None|true|false)'
row '1f enums, to be read for the shape of Result' "$src" '^ *(pub(\(crate\))? )?enum '
row '2  functions named by what they differ in' "$src" 'fn \w*(peg|pegs|fixed|fixed_levels|irc|table)(_\w+)?(<|\()'
row '3  loops over a range, and while' "$src" '^ *(for \w+ in .*\.\.|while )'
row '4a words, and telling, by functions' "$src" 'fn (\w*words|tell_\w+)\b'
row '4b conversions by functions' "$src" 'fn ((class|terrain|speed|gradient|sight)_of|told_by|told|named)\b|fn number\(self\) -> u32'
row '5a the place is within the bytes' "$src" 'requires.*at ≤ length bytes.now'
row '5b pegs and fixed levels are sound' "$src" 'SoundAlignment pegs.now fixed.now'
row '5c the verdicts of the code' "$src" 'verdicts \(C.grade_verdict'
row '5d two lengths on a stretch are in range' "$src" 'requires (lengths|room) \{ .*(left ≤ 2000|Lengths t left right|Room t left right)'
row '5e figures of a turn or a rule are in range' "$src" 'requires.*(change ≤ 180000000000|base ≤ 100000000|rule.distance ≤ 640)'
row '5f there is room at a place' "$src" 'requires.* at \+ length \('
row '6a arrays of fixed size' "$src" '[:=(] *\[[A-Za-z0-9<>_]+; [0-9]+\]|\}; [0-9]+\]'
row '6b a count or an end beside a value' "$src" '^ *(pub(\(crate\))? )?(count|end): (usize|u32),'
row '7  switches on which code judges' "$src" 'match (self\.)?choice'
row '8a answers' "$answers" '^(pub )?[^ ]+ : goal\.'
row '8b lemmas' 'crates/*/proofs/*.antt' '^ *(pub )?[a-z_][^ ]* : ' ': goal\.'
printf '%-52s %s\n' '8c lines of proof' "$(git grep -hcE '' "$commit" -- 'crates/*/proofs/*.antt' | awk '{s+=$1} END {print s}')"
