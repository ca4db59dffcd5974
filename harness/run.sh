#!/bin/bash
# Compares the proved library with a plain implementation in Rust, and measures its speed:
#
#     bash harness/run.sh                                        # both, with seed 1
#     bash harness/run.sh compare --seed 7 --operands 1000000 --sheets 100000
#     bash harness/run.sh speed --repetitions 500
#
# It builds the static library of crates/exports by `rt lib`, which proves it, compiles the programs in C by gcc and the rest by cargo (no
# crate from a registry), links all and runs it. What it wants besides `rt`: cargo, gcc, python3; and for the comparison with Arb Debian's
# libflint-arb-dev, without which that line is left out. It is no part of the gate. `compare` ends with status 1 where anything differs.
set -eu
cd "$(dirname "$0")"
(cd ../crates/exports && rt lib >target.log 2>&1 || { cat target.log; exit 1; }; rm -f target.log)
kit=$(dirname "$(rt doc)")
export RATTLE_C=$kit/c
if [ -f /usr/include/arb.h ]; then
    export HARNESS_ARB=1
    sh c/build.sh arb
else
    export HARNESS_ARB=0
    echo "no Arb on this machine: its line is left out"
    sh c/build.sh
fi
cargo build --release --offline --quiet
if [ $# -gt 0 ]; then
    exec target/release/harness "$@"
fi
target/release/harness compare
target/release/harness speed
