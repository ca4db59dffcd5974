#!/bin/sh
# Counts the places that docs/DESIGN-PASS.md speaks of, by its points, in the sources below a folder (this repository, or another
# checkout of it). Prints each place and then the count; with --counts, the counts alone.
quiet=
[ "${1-}" = --counts ] && { quiet=1; shift; }
cd "${1-$(dirname "$0")/..}" || exit 1
src=$(find crates -name out -prune -o -path '*/src/*' -name '*.rt' -print | sort)

count() { # count NAME, the places on standard input
    places=$(cat)
    [ -n "$quiet" ] || { [ -z "$places" ] || printf '%s\n' "$places"; }
    printf '%s: %s\n' "$1" "$(printf '%s' "$places" | grep -c '')"
}

# 1: numbers for kinds, variants that say that nothing is there, signs beside sizes
grep -nE 'Result<[^;{]*, u8>|operation: u8|NotAdmitted\(u8\)|[^a-z](Operation|OrderAndOperation|CauseNumber)\([a-z0-9, ]*u8\)' $src | count '1 numbers for kinds'
grep -nE '^    (Start|Nothing|NoOperand),' $src | count '1 variants that say that nothing is there'
grep -nE 'negative: bool' $src | count '1 signs beside sizes'
# 2: names of functions that stand in two places and more, those of an impl of a trait left out
for f in $src; do
    awk -v f="$f" '/^impl.* for /{skip=1} /^}/{skip=0} /^(pub )?trait /{skip=1} !skip && match($0, /fn [a-z_0-9]+/){print substr($0, RSTART + 3, RLENGTH - 3)}' "$f"
done | grep -vxE 'main|fmt|from|new|drop|clone' | sort | uniq -d | count '2 functions of one name'
# 3: loops that count an index
grep -nE '^ *(while |for [a-z_]+ in [^{]*\.\.)' $src | count '3 loops by index'
# 4: printing, reading, comparing and converting by functions of their own
grep -nE 'fn (show_[a-z]+|hex_digit|digit|byte|byte_at|number|details|whole_sum|opened|first_word|read_[a-z]+|told)\(' $src | count '4 conversions by hand'
# 5: clauses that stand three times and more
cat $src | sed -nE 's/^ *(requires|ensures)[a-z_ ]*(\{.*\})[;]?$/\2/p' | sort | uniq -c | sort -rn | awk '$1 >= 3' | count '5 repeated clauses'
# 6: arrays, tables and lists of bindings
grep -nE 'const [A-Z_]+: \[|let mut [a-z]+ = \[|let (second|third|fourth|fifth|sixth|seventh|eighth) ' $src | count '6 arrays and lists of bindings'
# 7: flags among the parameters
grep -nE '[(,] ?[a-z_]+: bool[,)]|^    [a-z_]+: bool,$' $src | grep -v 'pub' | count '7 flags'
# 8: proof files and their lines
find crates -name out -prune -o -path '*/proofs/*' -name '*.antt' -print | count '8 proof files' | tail -n 1
find crates -name out -prune -o -path '*/proofs/*' -name '*.antt' -exec cat {} + | count '8 lines of proofs' | tail -n 1
