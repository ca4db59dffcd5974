# Compiles the forms in C for the processor that the proved library is compiled for (x86-64-v2), without fused operations; one of them once
# more with fused operations for x86-64-v3; and the form that calls libmpdec, which decimal_cards.py loads. With `arb` also what needs Arb's
# headers.
set -eu
here=$(dirname "$0")
out=$here/../target/c
mkdir -p "$out"
flags="-O3 -ffp-contract=off -Wall"
for name in two_passes two_passes_tested same_form double_double; do
    gcc $flags -march=x86-64-v2 -c "$here/$name.c" -o "$out/$name.o"
done
gcc $flags -march=x86-64-v3 -DUSE_FMA -c "$here/two_passes_tested.c" -o "$out/two_passes_tested_fma.o"
rm -f "$out/libforms.a"
for name in two_passes two_passes_tested two_passes_tested_fma same_form double_double; do
    ar rcs "$out/libforms.a" "$out/$name.o"
done
gcc $flags -march=x86-64-v2 -shared -fPIC "$here/libmpdec.c" -o "$out/libmpdec_cards.so"
if [ "${1:-}" = arb ]; then
    gcc $flags -march=x86-64-v2 -c "$here/arbs.c" -o "$out/arbs.o"
    ar rcs "$out/libarbs.a" "$out/arbs.o"
fi
