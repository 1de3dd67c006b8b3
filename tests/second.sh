#!/bin/sh
# The second interpreter: its own tests, and the line that it prints for the case that document 01 lists.
set -eu
cd "$(dirname "$0")/.."
export CARGO_TARGET_DIR="$PWD/target/second"
cargo test --quiet --release --offline --manifest-path second/Cargo.toml
second=$(tools/second)
line=$(printf '\001\000\001\000\004\000\004\000\000\227\006\100\004\000\000\364' | "$second" plot)
[ "$line" = '1 3 4 4 8 6 4' ] || { echo "second plot printed '$line'"; exit 1; }
