#!/bin/sh
# peer.sh [COUNT [SEED]]: builds the rig's client and the listing, and runs them against the peer on COUNT cases (20,000), after the stored ones.
set -eu
cd "$(dirname "$(readlink -f "$0")")/../.."
. tests/machine.sh
compiler
mkdir -p target/tests
library rig
program listing
client -static -o target/tests/rig
rustc --edition 2021 -O -o target/tests/peer tests/peer/main.rs
target/tests/peer vectors tests/cases
# by way of a file and not of a pipe, which would lose how the program ended
target/tests/peer listing examples/line.bin >target/tests/listed
cmp target/tests/listed examples/line.out
# the program as it is, a process for each stored input
for input in tests/cases/listing/*.in examples/line.bin; do
    $start crates/listing/out/listing <"$input" >target/tests/listed || { echo "$input: the listing ended with $?" && exit 1; }
    cmp target/tests/listed "${input%.*}.out"
done
# the same program, one process for many inputs
# shellcheck disable=SC2086
"$cc" -std=c99 -Wall -Wextra -Werror -O2 -static -Wl,--wrap=main -o target/tests/listings tests/c/listings.c crates/listing/out/listing.o $parts
target/tests/peer cases "${1:-20000}" "${2:-1}" "$run target/tests/rig" "$run target/tests/listings"
