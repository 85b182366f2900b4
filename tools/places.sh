#!/bin/sh
# Lists the places in src/ that the design pass looks at, point by point, with how many there are.
# docs/DESIGN-PASS.md says what each point is, and what came of its places.
cd "$(dirname "$0")/.." || exit 1

code() { grep -rnE --include=*.rt "$1" crates/*/src | grep -vE '^[^:]*:[0-9]*: *//'; }

show() {
    echo "== $1"
    sort -u -t: -k1,1 -k2,2n "$2"
    echo "-- $1: $(sort -u -t: -k1,1 -k2,2n "$2" | wc -l)"
}

kept=$(mktemp -d) || exit 1
trap 'rm -rf "$kept"' EXIT

# 1: pairs of numbers for steps and numbers for directions, verdicts and "never"; a pair of zeros for "no place"; a match or a let-else
# that hands a None or an Err on.
code '\(u8, u8\)|(direction|way|verdict): u8|NEVER|Ok\(255\)|\[255; 33\]' >"$kept/1"
code '^ *(line|field): 0,' >>"$kept/1"
grep -rnE --include=*.rt -A1 'let (Some|Ok|None).* else \{' crates/*/src | grep -E 'return (None|Err|false)' | sed -E 's/^([^:]*\.rt)-([0-9]+)-/\1:\2:/' >>"$kept/1"
code 'None => (None|Err)|Some\([a-z]*\) => (Some|Ok)|Ok\([a-z]*\) => Ok\(|Err\(_\) => (Err|false|Ok\(false)' >>"$kept/1"
show 1 "$kept/1"

# 2: constants of one name, and functions of one promise: a function whose body is one call with its own arguments.
code 'const LONGEST|const (PLACES|ROOM)' >"$kept/2"
grep -rnE --include=*.rt -A1 '^ *\{$' crates/*/src | grep -E -- '-[0-9]+- +(self\.)?[a-z_:]+\([a-z_, &.()]*\)$' | sed -E 's/^([^:]*\.rt)-([0-9]+)-/\1:\2:/' >>"$kept/2"
code '^ *run\(&rt\)$|\|\| .*same_bytes|same_bytes' >>"$kept/2"
show 2 "$kept/2"

# 3: loops over a range that index by it, loops by while, and counts by hand.
code '^ *while |(^|[^a-z_])for [a-z]+ in [0-9a-z_.]*\.\.|^ *[a-z_.]+ \+= 1;' >"$kept/3"
show 3 "$kept/3"

# 4: equality, blanks, conversions and copies written by hand.
code 'fn (same|same_bytes|eq|number|from_number|blank|bytes|or_stay|no_steps|blank_all)\(|impl .*(PartialEq|From|Display|Default).* for' >"$kept/4"
show 4 "$kept/4"

# 5: parameters that travel together.
code '(rows|letters): (usize|u8), *(letters|rows|dfa)|room: usize|tables: &mut|names: &mut Register|random: &mut|alphabet: &L|^ *letters: u8,$|^ *row: Row,' >"$kept/5"
grep -rnE --include=*.rt 'requires.*(letters ≤ 16|rows ≤ length|at ≤ room|≡ 32|states ≤ 32)' crates/*/src >>"$kept/5"
show 5 "$kept/5"

# 6: buffers with a length beside them, arrays in step with one another, indices worked out by hand.
code 'len: u8,|count: (usize|u32),|\* 18 \+|\[[^]]*; 576\]|known\.push|words\.push|saturating_mul\(32\)' >"$kept/6"
show 6 "$kept/6"

# 7: a choice of the step to run, by a case or a number.
code 'Call::(Change|Build|Ask|Walk)' | grep -v 'tell(' >"$kept/7"
show 7 "$kept/7"

# 8: files of written proofs.
find crates/*/proofs -name '*.antt' ! -name Lib.antt | sed 's/$/:0:/' >"$kept/8"
echo "-- 8: $(wc -l <"$kept/8") files, $(find crates/*/proofs -name '*.antt' -exec cat {} + | wc -l) lines"
