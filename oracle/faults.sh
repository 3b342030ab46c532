#!/usr/bin/env bash
# Runs the region program, as a listing and as a sheet, where reads and writes are interrupted, cut short or fail, and compares what it wrote with what it writes
# undisturbed: the same where a signal interrupts a call, and the front of it where a write fails. It needs strace, and programs that `tools/build region sheet` built.
set -e
cd "$(dirname "$0")/.."
mkdir -p target/faults
words=target/faults/words whole=target/faults/whole part=target/faults/part
# 20,000 regions of one locus, 4,000 to a pop word: one block of words prints more than a buffer of text
{
    printf '\001\000\000\301\001\000\000\302\000\000\000\305'
    for base in 0 4000 8000 12000 16000; do
        printf "$(seq $((base + 1)) $((base + 4000)) | awk '{ printf "\\%03o\\%03o\\000\\000", $1 % 256, int($1 / 256) }')"
        printf '\001\000\000\200'
    done
} > $words
same() { cmp $whole $part && echo "$1: the same"; }
front() { cmp -n "$(wc -c < $part)" $whole $part && [ "$(wc -c < $part)" -lt "$(wc -c < $whole)" ] && echo "$1: the first $(wc -c < $part) bytes, and no more"; }
for program in region sheet; do
    run=target/bin/$program
    $run < $words > $whole
    echo "$program undisturbed: $(wc -l < $whole) lines, $(wc -c < $whole) bytes"
    strace -o /dev/null -e trace=read -e inject=read:error=EINTR:when=2+3 $run < $words > $part
    same "every third read interrupted"
    strace -o /dev/null -e trace=write -e inject=write:error=EINTR:when=1+2 $run < $words > $part
    same "every second write interrupted"
    # a pipe that is read slowly takes writes in pieces
    $run < $words | { sleep 1; cat > $part; }
    same "through a pipe"
    # a file that may have 100 kB: a write is cut short, and the next fails
    ( trap '' XFSZ; ulimit -f 100; $run < $words > $part 2> target/faults/told || true )
    front "a full disk"
    cat target/faults/told
    # a write that fails once, with others behind it that would not
    strace -o /dev/null -e trace=write -e inject=write:error=ENOSPC:when=3 $run < $words > $part 2> target/faults/told || true
    front "one write that fails"
done
