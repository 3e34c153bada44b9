#!/usr/bin/env bash
# install.sh LIB: installs into an empty folder, then compiles and runs the
# examples against what stands there, as C99, C11 and C++17, with every compiler
# of gcc and clang that is there.
set -euo pipefail
cd "$(dirname "${BASH_SOURCE[0]}")/.."
library=$1
folder=$(mktemp -d)
trap 'rm -rf "$folder"' EXIT

# A folder with a space in its name, and a prefix that no compiler searches.
root="$folder/empty folder"
prefix=/opt/lockmgr
make --no-print-directory --silent install LIB="$library" PREFIX=$prefix DESTDIR="$root"

version=$(sed -n 's/^#define LOCKMGR_VERSION "\(.*\)"$/\1/p' include/lockmgr.h)
expected="include/lockmgr.h
lib/liblockmgr.a
lib/liblockmgr.so
lib/liblockmgr.so.${version%.*}
lib/liblockmgr.so.$version
lib/pkgconfig/lockmgr.pc"
found=$(cd "$root$prefix" && find . ! -type d -printf '%P\n' | LC_ALL=C sort)
[ "$found" = "$expected" ] || { echo "installed: $found"; exit 1; }
symbols=$(nm -D --defined-only "$root$prefix/lib/liblockmgr.so" | awk '{ print $3 }' | xargs)
[ "$symbols" = "lockmgr_cycle_text lockmgr_drain lockmgr_reopen lockmgr_report lockmgr_start lockmgr_step" ] || { echo "exports: $symbols"; exit 1; }

command -v pkg-config > /dev/null || { echo "no pkg-config here: the examples are not compiled against the installed files"; exit 0; }

# pkg-config knows the prefix alone, so the root becomes a link without a space.
ln -s "$root" "$folder/root"
export PKG_CONFIG_PATH="$folder/root$prefix/lib/pkgconfig" PKG_CONFIG_SYSROOT_DIR="$folder/root"
[ "$(pkg-config --modversion lockmgr)" = "$version" ]
read -ra flags <<< "$(pkg-config --cflags --libs lockmgr)"
read -ra headers <<< "$(pkg-config --cflags lockmgr)"
warnings=(-Wall -Wextra -Wpedantic -Wconversion -Werror)
export LD_LIBRARY_PATH="$folder/root$prefix/lib"

# compile NAME COMPILER FLAGS..: each example, with the shared library; then run.
compile() {
    local name=$1 example
    shift
    for example in examples/*.c; do
        "$@" "${warnings[@]}" "$example" "${flags[@]}" -pthread -o "$folder/program"
        "$folder/program" 0 1 > "$folder/output" || { cat "$folder/output"; exit 1; }
    done
    echo "$name: examples compiled and run"
}

for compilers in "gcc g++" "clang clang++"; do
    read -r c cpp <<< "$compilers"
    if command -v $c > /dev/null; then
        compile "$c, C99" $c -std=c99
        compile "$c, C11" $c -std=c11
    else
        echo "no $c here"
    fi
    if command -v $cpp > /dev/null; then
        compile "$cpp, C++17" $cpp -x c++ -std=c++17 -Wold-style-cast
    else
        echo "no $cpp here"
    fi
done

# The static library, without any other.
gcc -std=c99 examples/two_sessions.c "${headers[@]}" "$folder/root$prefix/lib/liblockmgr.a" -o "$folder/program"
env -u LD_LIBRARY_PATH "$folder/program" > /dev/null
echo "static library: example linked and run"
