#!/bin/sh
# The largest and deepest files on a thread with 128 KiB of stack, the rest of the program with 256 KiB.
set -eu
cd "$(dirname "$0")"
CARGO_TARGET_DIR=${CARGO_TARGET_DIR:-$PWD/../target/cargo}
export CARGO_TARGET_DIR
cargo build --offline --quiet --release --bin big
ulimit -s 256
exec "$CARGO_TARGET_DIR/release/big" "$@"
