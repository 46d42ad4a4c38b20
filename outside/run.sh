#!/bin/sh
# The library beside other programs. Needs Debian's netpbm and ffmpeg, and target/staticlib/libflorinhado.a (./library).
# Remakes netpbm's files of outside/files, reads all, then has ilbmtoppm and ffmpeg read pictures that the library writes, ilbmtoppm the
# shapes of brushes, and both pictures by hold-and-modify and half-bright.
set -eu
cd "$(dirname "$0")/.."
for program in ppmtoilbm ilbmtoppm ppmtoppm pamtopnm ffmpeg; do
    command -v "$program" > /dev/null || { echo "$program is missing: it is in Debian's netpbm or ffmpeg" >&2; exit 2; }
done
CARGO_TARGET_DIR=${CARGO_TARGET_DIR:-$PWD/target/cargo}
export CARGO_TARGET_DIR
cargo build --offline --quiet --release -p outside
outside=$CARGO_TARGET_DIR/release/outside
work=target/outside
rm -rf "$work"
mkdir -p "$work/written" "$work/brushes" "$work/colours" "$work/apart"

by_netpbm() {
    ilbmtoppm -quiet "$1" | ppmtoppm
}

by_ffmpeg() {
    ffmpeg -v error -f iff -i "$1" -f image2pipe -c:v ppm -pix_fmt rgb24 - < /dev/null
}

# both FILE PPM: each program's pixels are those of the PPM.
both() {
    for reader in by_netpbm by_ffmpeg; do
        "$reader" "$1" > "$work/shown.ppm" || { echo "$1: $reader fails"; return 1; }
        cmp "$work/shown.ppm" "$2" || { echo "$1: $reader"; return 1; }
    done
}

ilbmtoppm -version 2>&1 | sed -n 's/.*Netpbm Version: //p'
ffmpeg -version | sed -n 1p | cut -d' ' -f1-3

python3 -B outside/make.py "$work/files"
diff -r -x 'grafx2_*' -x 'pike_*' -x 'java_*' -x '*.pike.ppm' "$work/files" outside/files
echo "outside/files: netpbm's remade, the same bytes"
"$outside" read outside/files

# netpbm starts every line of hold-and-modify with an entry of the palette, so that ffmpeg shows what 003 and the ask have.
count=0
for file in outside/files/*.ilbm; do
    name=${file%.ilbm}
    if [ -e "$name.refused" ] || [ -e "$name.colours" ]; then continue; fi
    shown=$name.ppm
    [ ! -e "$name.pike.ppm" ] || shown=$name.pike.ppm
    by_ffmpeg "$file" | cmp - "$shown"
    count=$((count + 1))
done
echo "outside/files: $count read by ffmpeg, the same pixels"

"$outside" write "$work/written"
count=0
for file in "$work"/written/*.ilbm; do
    both "$file" "${file%.ilbm}.ppm"
    count=$((count + 1))
done
echo "$count pictures of the library read by ilbmtoppm and ffmpeg, the same pixels"

# In a PBM that ilbmtoppm makes of a mask or a transparent colour, black, 1, are the pixels that show.
"$outside" brushes "$work/brushes"
"$outside" read "$work/brushes"
count=0
for file in "$work"/brushes/*.ilbm; do
    case $file in
    */masking1_planes8_0_*) by_netpbm "$file" | cmp - "${file%.ilbm}.ppm" ;; # ffmpeg shows others, of netpbm's files too
    *) both "$file" "${file%.ilbm}.ppm" ;;
    esac
    ilbmtoppm -quiet -maskfile "$work/mask.pbm" "$file" > "$work/shown.ppm"
    pamtopnm -plain "$work/mask.pbm" > "$work/mask.txt"
    pamtopnm -plain "${file%.ilbm}.pbm" | cmp - "$work/mask.txt" || { echo "$file: mask"; exit 1; }
    count=$((count + 1))
done
echo "$count brushes of the library read by ilbmtoppm -maskfile, the same shapes"

# Hold-and-modify by the rule of each program: ilbmtoppm keeps the low bits of a part, ffmpeg starts a line from the palette's first colour.
"$outside" colours "$work/colours"
count=0
for file in "$work"/colours/*.ilbm; do
    name=${file%.ilbm}
    case $name in
    */half_*) both "$file" "$name.ppm" ;;
    *)
        by_netpbm "$file" | cmp - "$name.netpbm.ppm"
        by_ffmpeg "$file" | cmp - "$name.ffmpeg.ppm"
        ;;
    esac
    count=$((count + 1))
done
echo "$count pictures by hold-and-modify and half-bright read by ilbmtoppm and ffmpeg, each by its rule"

# Told only: files on which readers differ.
"$outside" apart "$work/apart"
for file in "$work"/apart/*.ilbm; do
    for reader in by_netpbm by_ffmpeg; do
        if "$reader" "$file" > "$work/shown.ppm" 2> /dev/null && [ -s "$work/shown.ppm" ]; then
            cmp -s "$work/shown.ppm" "${file%.ilbm}.ppm" && told="the library's pixels" || told="other pixels"
        else
            told="refused"
        fi
        echo "$(basename "$file" .ilbm), $reader: $told"
    done
done
