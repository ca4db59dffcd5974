#!/usr/bin/env bash
# What the compiler must refuse of an issued question: to mark it twice, to copy it, to make one from its numbers, to take
# it apart, to change a number of it, to let go a refusal that gives it back. The edits under must-fail/ cannot count these, since they
# must reach the prover.
#
# Each attempt puts another text in place of the line of the program `refusals` that withdraws a question which a bench gave back, on one
# copy of the sources, and has the toolchain try the program without proofs. It must be refused, by the compiler's message for that very
# reason. (That the program is accepted as it stands, `rt ci` shows, which the gate runs after this script.)
set -eu
root=$(cd "$(dirname "$0")/.." && pwd)
copy=$(mktemp -d)
trap 'rm -rf "$copy"' EXIT
program=crates/refusals/src/main.rt
line='withdraw(other, &Binary64, question);'

fail() {
    echo "questions: $1"
    exit 1
}

# attempt NAME TEXT MESSAGE: with TEXT in place of the line, the compiler says MESSAGE.
attempt() {
    local original
    original=$(<"$root/$program")
    printf '%s\n' "${original/"$line"/"$2"}" >"$copy/$program"
    if (cd "$copy/crates/refusals" && rt try) >"$copy/log" 2>&1; then
        fail "accepted: $1"
    fi
    if ! grep -qF "$3" "$copy/log"; then
        tail -n 5 "$copy/log"
        fail "refused, but for another reason: $1"
    fi
    echo "questions: refused, as it must be: $1"
}

cp "$root/crates.txt" "$copy/"
for part in "$root"/crates/*/{src,specs,proofs}; do
    [ -d "$part" ] || continue
    crate=$copy/crates/$(basename "$(dirname "$part")")
    mkdir -p "$crate"
    cp -R "$part" "$crate/"
done
[ "$(grep -cF "$line" "$root/$program")" = 1 ] || fail "the line to replace does not stand once in $program"

mark='other.mark(&mut Binary64, question, &[0; 8], &[0; 8])'
attempt 'a question marked twice' \
    "match $mark { Ok(_) => match $mark { Ok(_) => {} Err(_) => unreachable!() }, Err(_) => unreachable!() }" \
    'error[borrow-e0382]: use of moved value: `question`'
attempt 'a question copied' \
    "if let Ok(copied) = question.clone() { withdraw(other, &Binary64, copied); } $line" \
    'error[unknown-method]: the method `clone` exists for `Question`, but its bounds are not met'
attempt 'a question made from its numbers' \
    "$line let made = bench::question::Question { bench: 1, order: 0 }; withdraw(other, &Binary64, made);" \
    'error[private-field]: field `bench` of struct `Question` is private'
attempt 'a question taken apart' \
    'let bench::question::Question { bench: _, order: _ } = question;' \
    'error[private-field]: field `bench` of struct `Question` is private'
attempt 'the order of a question changed' \
    "let mut question = question; question.order = 0; $line" \
    'error[private-field]: field `order` of struct `Question` is private'
attempt 'a refusal let go with the question that it gives back' \
    'let _ = other.withdraw(&Binary64, question);' \
    'error[linear-value-let-go]: this value is let go, since nothing takes it, and `Result<(), GivenBack>` is not `Drop`'
