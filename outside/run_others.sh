#!/bin/sh
# The library beside GrafX2, Pike and TwelveMonkeys. Needs Debian's grafx2, xvfb, xdotool, pike8.0-core, pike8.0-image,
# libtwelvemonkeys-java, openjdk-17-jdk-headless and netpbm, and target/staticlib/libflorinhado.a. About five minutes.
# Remakes their files of outside/files, then has them read pictures that the library writes.
set -eu
cd "$(dirname "$0")/.."
for program in grafx2 Xvfb xdotool pike8.0 java javac ilbmtoppm pngtopam; do
    command -v "$program" > /dev/null || { echo "$program is missing" >&2; exit 2; }
done
CARGO_TARGET_DIR=${CARGO_TARGET_DIR:-$PWD/target/cargo}
export CARGO_TARGET_DIR
cargo build --offline --quiet --release -p outside
outside=$CARGO_TARGET_DIR/release/outside
work=target/others
rm -rf "$work"
mkdir -p "$work/written" "$work/brushes" "$work/colours" "$work/apart" "$work/pike" "$work/java" "$work/png" "$work/grafx2"

python3 -B outside/make_others.py "$work/files"
for file in "$work"/files/*; do
    cmp "$file" "outside/files/$(basename "$file")"
done
echo "outside/files: $(ls "$work/files" | grep -c 'lbm$') files remade, the same bytes"
"$outside" read outside/files

# same PROGRAM FOLDER [RULE]: the PPM files in the program's folder have the library's pixels, those of hold-and-modify by the rule.
same() {
    count=0
    for shown in "$work/$1"/*.ppm; do
        known=$work/$2/$(basename "$shown" .ppm)
        [ ! -e "$known.${3:-}.ppm" ] || known=$known.$3
        cmp "$shown" "$known.ppm"
        count=$((count + 1))
    done
    echo "$count pictures of the library read by $1, the same pixels${3:+ by the rule of $3}"
}

by_pike() {
    rm -f "$work"/pike/*.ppm
    pike8.0 outside/others/ilbm.pike read "$work/$1" "$work/pike" 2> "$work/log"
    [ ! -s "$work/log" ] || echo "pike fails on $(wc -l < "$work/log") pictures"
}

jars=/usr/share/java
jars=$jars/common-lang.jar:$jars/common-io.jar:$jars/common-image.jar:$jars/imageio-core.jar:$jars/imageio-iff.jar
by_java() {
    rm -f "$work"/java/*.ppm
    java -cp "$jars" outside/others/Ilbm.java read "$work/$1" "$work/java" 2> "$work/log"
    [ ! -s "$work/log" ] || echo "java fails on $(wc -l < "$work/log") pictures"
}

# apart PROGRAM: tells what it made of the files on which readers differ.
apart() {
    for file in "$work"/apart/*.ilbm; do
        name=$(basename "$file" .ilbm)
        if [ ! -e "$work/$1/$name.ppm" ]; then
            told="refused"
        elif cmp -s "$work/$1/$name.ppm" "$work/apart/$name.ppm"; then
            told="the library's pixels"
        else
            told="other pixels"
        fi
        echo "$name, $1: $told"
    done
}

"$outside" write "$work/written"
"$outside" brushes "$work/brushes"
"$outside" colours "$work/colours"
"$outside" apart "$work/apart"
by_pike written
same pike written
by_pike brushes
same pike brushes
by_pike colours
same pike colours
by_java written
same java written
by_java colours
same java colours java
by_pike apart
apart pike
by_java apart
apart java

# GrafX2 takes five seconds for a file: all plane counts, plain and packed, at two widths.
python3 -B outside/others/grafx2.py "$work/png" "$work"/written/*_17.ilbm "$work"/written/*_319.ilbm
for shown in "$work"/png/*.png; do
    pngtopam "$shown" | ppmtoppm > "$work/grafx2/$(basename "$shown" .png).ppm"
done
same grafx2 written

# It has at most 256 colours: pictures of few pixels. A line starts as in ffmpeg.
rm "$work"/png/*.png "$work"/grafx2/*.ppm
python3 -B outside/others/grafx2.py "$work/png" "$work"/colours/*_17.ilbm "$work"/colours/*_33.ilbm
for shown in "$work"/png/*.png; do
    pngtopam "$shown" | ppmtoppm > "$work/grafx2/$(basename "$shown" .png).ppm"
done
same grafx2 colours ffmpeg
