#!/bin/sh
# The benchmark, or the part of it that is named: structure, frames, shapes, colours, rows, pictures or growth. Frames and colours are timed
# beside libavcodec and libswscale too, where pkg-config finds them.
set -eu
cd "$(dirname "$0")"
CARGO_TARGET_DIR=${CARGO_TARGET_DIR:-$PWD/../target/cargo}
export CARGO_TARGET_DIR
cargo build --offline --quiet --release --bin bench
if pkg-config --exists libavcodec libswscale libavutil; then
    OUTSIDE=$CARGO_TARGET_DIR/release/libavcodec_frame.so
    export OUTSIDE
    # shellcheck disable=SC2046
    gcc -std=gnu11 -Wall -Wextra -O2 -shared -fPIC -o "$OUTSIDE" libavcodec.c \
        $(pkg-config --cflags --libs libavcodec libswscale libavutil)
fi
exec "$CARGO_TARGET_DIR/release/bench" "$@"
