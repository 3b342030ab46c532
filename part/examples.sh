#!/usr/bin/env bash
# Builds the part, and the examples in C and in Rust over it, and runs both and the region program on the same words: all three print the same, and the examples the same
# with peaks, and where they pop after each locus. Then runs checks.c.
# examples.sh [WORDS ...]; without arguments the samples, a stream that is refused, and one that ends within a word.
set -e
cd "$(dirname "$0")/.."
mkdir -p target
tools/build region_picker > target/staticlib.log 2>&1 || { cat target/staticlib.log; exit 1; }
tools/build region > target/region.log 2>&1 || { cat target/region.log; exit 1; }
gcc -std=c99 -O2 -Wall -Wextra -pedantic -o target/regions part/examples/c/regions.c target/staticlib/libregion_picker.a
cargo build --quiet --release --offline --manifest-path part/examples/rust/Cargo.toml
words=("$@")
if [ ${#words[@]} -eq 0 ]; then
    printf '\001\000\000\000\001\000\000\200\003\000\000\000\004\000\000\000\005\000\000\000' > target/refused.words
    printf '\001\000\000\000\001\000' > target/remainder.words
    words=(samples/*.words target/refused.words target/remainder.words)
fi
for file in "${words[@]}"; do
    target/bin/region < "$file" > target/region.lines
    for program in target/regions part/examples/rust/target/release/regions; do
        "$program" < "$file" > target/example.lines
        cmp target/region.lines target/example.lines || { echo "$program differs from region on $file"; exit 1; }
    done
    target/regions peaks < "$file" > target/region.peaks
    part/examples/rust/target/release/regions peaks < "$file" | cmp target/region.peaks - || { echo "the peaks of C and Rust differ on $file"; exit 1; }
    # without the peaks, which are two numbers behind the five of a region, a line is what it was
    sed 's/^\(\([0-9]* \)\{4\}[0-9]*\) [0-9]* [0-9.]*$/\1/' target/region.peaks | cmp target/region.lines - || { echo "the lines with peaks differ on $file"; exit 1; }
    target/regions each < "$file" > target/region.each
    part/examples/rust/target/release/regions each < "$file" | cmp target/region.each - || { echo "C and Rust differ on $file, popped after each locus"; exit 1; }
    echo "$file: $(wc -l < target/region.lines) lines, the same from region, C and Rust"
done
gcc -std=c99 -O2 -Wall -Wextra -pedantic -o target/checks part/checks.c target/staticlib/libregion_picker.a
target/checks
