#!/bin/sh
# list.sh [FILE]: proves and builds the listing program, and lists FILE, or the example.
set -eu
about='Proves and builds the listing program, and lists FILE, or the example where there is none: bounds, the job that runs after each event, misses.
FILE holds bytes: one byte n, n table records, then events (docs/RULES.md, "The listing"); ./brumerola bytes makes them from text.
It needs rt of the Rattle toolchain. The first time takes up to 10 minutes, later ones a second.
It ends with 2 where something is missing or wrong and with 1 where the build failed, which standard error tells; else with 0, as the program does.'
here='' input=''
# shellcheck source=examples/input.sh
. "$(dirname "$(readlink -f "$0")")/input.sh"
cd "$here"
. tests/machine.sh
echo "proving and building the listing program (up to 10 minutes the first time, a second after that)" >&2
program listing >&2 || fails "the listing program is not built, so nothing is listed: rt says above why"
$start crates/listing/out/listing <"$input"
