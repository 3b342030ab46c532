#!/usr/bin/env bash
# Times the original and the part in one run, and prints the table of docs/SPEED.md. With `count`, counts the instructions of two rows by callgrind instead. With
# `against LIBRARY`, another build of the part (libregion_picker.a), times the scores, the soft-clip counts and the pops of both in one process, in turn.
set -e
case "$1,$#" in
,0 | count,1) ;;
against,2) library=$(realpath -e "$2") ;;
*)
    echo "usage: part/speed.sh [count | against LIBRARY]" >&2
    exit 2
    ;;
esac
cd "$(dirname "$0")/.."
mkdir -p target
tools/build region_picker > target/staticlib.log 2>&1 || { cat target/staticlib.log; exit 1; }
if [ "$1" = against ]; then
    # the other build's functions get `before_` in front of their names
    nm --defined-only --extern-only "$library" | awk 'NF == 3 { print $3, "before_" $3 }' > target/before.names
    objcopy --redefine-syms=target/before.names "$library" target/before.a
    gcc -std=c99 -D_POSIX_C_SOURCE=200809L -O2 -Wall -Wextra -pedantic -o target/against part/speed/against.c target/staticlib/libregion_picker.a target/before.a
    exec target/against
fi
tools/build region > target/region.log 2>&1 || { cat target/region.log; exit 1; }
cargo build --quiet --release --offline --manifest-path part/speed/Cargo.toml
speed=part/speed/target/release/speed
if [ "$1" != count ]; then
    exec "$speed" target/bin/region
fi
# instructions CASE SIDE N: of a run of N turns, making the case included
instructions() {
    valgrind --tool=callgrind --callgrind-out-file=/dev/null "$speed" count "$@" 2>&1 | sed -n 's/^==[0-9]*== Collected : //p'
}
for row in 1 14; do
    for side in original part; do
        few=$(instructions "$row" "$side" 1000)
        many=$(instructions "$row" "$side" 3000)
        echo "row $row, $side: $(((many - few) / 2000)) instructions a turn"
    done
done
