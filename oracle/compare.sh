#!/usr/bin/env bash
# Compares the region program, as a listing and as a sheet, with the oracle on fresh streams: compare.sh COUNT [SEED]. It needs cargo, and programs that
# `tools/build region sheet` built.
set -e
cd "$(dirname "$0")/.."
cargo build --quiet --release --offline --manifest-path oracle/Cargo.toml
oracle/target/release/oracle compare "${2:-$RANDOM}" "${1:-1000}" target/bin/region target/bin/sheet
