#!/bin/sh
# The reader and the table in proportion to the file, with a stack of 256 KiB.
set -eu
cd "$(dirname "$0")"
CARGO_TARGET_DIR=${CARGO_TARGET_DIR:-$PWD/../target/cargo}
export CARGO_TARGET_DIR
cargo build --offline --quiet --release --bin listing
ulimit -s 256
exec "$CARGO_TARGET_DIR/release/listing"
