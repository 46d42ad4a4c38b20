#!/bin/sh
# The table of record structs in proportion to the file, with a stack of 256 KiB. Not in the gate.
# A record holds an enum, so no exported call can take such a table. The code that the compiler makes of `list_record_table::fill` is taken
# from a small program that calls it, and linked under a name of its own; nothing else of it is changed.
set -eu
cd "$(dirname "$0")"
root=$(cd .. && pwd)
kit=$(dirname "$(dirname "$(readlink -f "$(command -v rt)")")")
CARGO_TARGET_DIR=${CARGO_TARGET_DIR:-$root/target/cargo}
export CARGO_TARGET_DIR
room=$(mktemp -d)
trap 'rm -rf "$room"' EXIT
mkdir -p "$root/target/records"

# A program that fills a table of one record.
mkdir -p "$room/crates/filled/src"
echo 'filled: list_record_table list_spec iff_name' > "$room/crates.txt"
cat > "$room/crates/filled/src/main.rt" <<'END'
// Fills a table of one record.
#![tactic(auto)]

use iff_name::{Kind, Name};
use list_spec::Record;

fn main() {
    let mut table = [Record {
        number: 0,
        level: 0,
        kind: Kind::FORM,
        name: Name { code: 0 },
        place: 0,
        size: 0,
    }; 1];
    list_record_table::fill(b"", &mut table);
}
END
"$root/.ci/proved" "$room" list_record_table > "$room/proved.log" 2>&1 || { cat "$room/proved.log"; exit 1; }

# A compiler that makes fill.o too, of the same module with a global name for that function and with no main.
mkdir -p "$room/toolchain/bin"
ln -s "$kit/toolchain/lib" "$room/toolchain"
for tool in "$kit"/toolchain/bin/*; do
    ln -s "$tool" "$room/toolchain/bin"
done
rm "$room/toolchain/bin/clang"
cat > "$room/toolchain/bin/clang" <<END
#!/bin/sh
set -eu
clang=$kit/toolchain/bin/clang
case " \$* " in *' module.bc '*)
    cp module.bc whole.bc
    "\$clang" -x ir -S -emit-llvm -O0 -Xclang -disable-llvm-passes whole.bc -o whole.ll
    sed -e 's/define internal void @"list_record_table::fill"/define void @records_fill/' \\
        -e 's/@"list_record_table::fill"/@records_fill/g' -e '/^define i32 @main()/,/^}/d' whole.ll > module.bc
    "\$clang" "\$@"
    cp module.o "$root/target/records/fill.o"
    mv whole.bc module.bc
    ;;
esac
exec "\$clang" "\$@"
END
chmod +x "$room/toolchain/bin/clang"
"$root/.ci/build" "$room" filled "$room/filled.o" "$room/toolchain"
cargo build --offline --quiet --release --features records --bin records
ulimit -s 256
"$CARGO_TARGET_DIR/release/records"
