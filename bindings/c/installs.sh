#!/bin/sh
# Installs the library into a new folder, builds and runs programs there by pkg-config, and uninstalls it. make test-install runs
# it, with VERSION and SONAME.
set -eu
bindings=$(cd "$(dirname "$0")/.." && pwd)
place=$(mktemp -d)
trap 'rm -rf "$place"' EXIT
# That of a user must not be found.
export PKG_CONFIG_PATH= PKG_CONFIG_LIBDIR="$place/there/lib/pkgconfig" CARGO_TARGET_DIR="$place/target"
unset VOKUJIN_LIBRARY
run() { make -s -C "$bindings" "$@"; }
failed() {
    echo "c/installs.sh: $*"
    exit 1
}

# A package is built below DESTDIR, and its files are named as they will be.
run install PREFIX=/usr DESTDIR="$place/package"
(cd "$place/package" && find . -type f -o -type l | sort) >"$place/files"
cat >"$place/expected" <<END
./usr/include/vokujin.h
./usr/include/vokujin_cursor.h
./usr/lib/$SONAME
./usr/lib/libvokujin.a
./usr/lib/libvokujin.so
./usr/lib/libvokujin.so.$VERSION
./usr/lib/pkgconfig/vokujin.pc
./usr/share/man/man3/vokujin.3
END
sort "$place/expected" | diff - "$place/files" || failed "other files are installed"
grep -qx 'libdir=/usr/lib' "$place/package/usr/lib/pkgconfig/vokujin.pc" || failed "vokujin.pc names other folders"
run uninstall PREFIX=/usr DESTDIR="$place/package"
test -z "$(find "$place/package" -type f -o -type l)" || failed "files are left"

# Programs in C, over the shared and the static library.
run install PREFIX="$place/there"
test "$(pkg-config --modversion vokujin)" = "$VERSION" || failed "another version"
for program in test cursor; do
    ${CC:-cc} -Wall -Wextra -Werror -o "$place/shared" "$bindings/c/$program.c" $(pkg-config --cflags --libs vokujin)
    LD_LIBRARY_PATH="$place/there/lib" "$place/shared" >/dev/null
    ${CC:-cc} -static -o "$place/static" "$bindings/c/$program.c" $(pkg-config --static --cflags --libs vokujin)
    "$place/static" >/dev/null
done
readelf -d "$place/shared" | grep -q "NEEDED.*\[$SONAME\]" || failed "the program needs another library"
grep -o 'vokujin_[a-z_]*(' "$bindings/c/vokujin.h" | tr -d '(' | sort -u >"$place/declared"
nm -D --defined-only "$place/there/lib/libvokujin.so" | awk '{print $3}' | sort | diff "$place/declared" - || failed "other calls are shown"
for call in $(cat "$place/declared"); do
    grep -qw "$call" "$place/there/share/man/man3/vokujin.3" || failed "$call is not on the page"
done

# A program in Rust: the crate finds the library by pkg-config; by its path; and says what to do where it finds none.
cp -r "$bindings/rust" "$place/crate"
mkdir -p "$place/program/src"
cat >"$place/program/Cargo.toml" <<'END'
[package]
name = "program"
version = "0.1.0"
edition = "2024"
[dependencies]
vokujin = { path = "../crate" }
END
echo 'fn main() { println!("{:?}", vokujin::Map::from([("10", "east")]).longest_match("10.1")); }' >"$place/program/src/main.rs"
cd "$place/program"
expected='Some((2, "east"))'
test "$(cargo run -q --offline)" = "$expected" || failed "the crate did not find the installed library"
export PKG_CONFIG_LIBDIR="$place/nowhere"
test "$(VOKUJIN_LIBRARY="$place/there/lib/libvokujin.a" cargo run -q --offline)" = "$expected" || failed "the crate did not find the named library"
VOKUJIN_LIBRARY="$place/nothing.a" cargo build -q --offline 2>"$place/said" && failed "the crate was built over nothing"
grep -q 'error: vokujin@.*: VOKUJIN_LIBRARY is .*nothing.a, which is not the absolute path of a file libvokujin.a$' "$place/said" || failed "$(cat "$place/said")"
cargo build -q --offline 2>"$place/said" && failed "the crate was built without a library"
grep -q 'error: vokujin@.*: there is no library libvokujin.a: run `make -C bindings install`.*$' "$place/said" || failed "$(cat "$place/said")"
cd "$bindings"

# The packages and the page have the version of the library.
grep -qx "__version__ = \"$VERSION\"" python/src/vokujin/__init__.py || failed "the package of Python has another version"
grep -qx "version = \"$VERSION\"" rust/Cargo.toml || failed "rust/Cargo.toml has another version"
grep -q "\"vokujin $VERSION\"" c/vokujin.3 || failed "c/vokujin.3 has another version"
run uninstall PREFIX="$place/there"
test -z "$(find "$place/there" -type f -o -type l)" || failed "files are left"
echo ok
