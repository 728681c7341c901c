#!/bin/sh
# build.sh: makes FOLDER/bench: the library's calls beside C by gcc and by clang, at -O2 and at -O3, and beside Rust where rustc makes
# code for the same processor.
#
#     bench/build.sh FOLDER ARCHIVE            x86-64 code, as the library is on every machine
#     bench/build.sh FOLDER OBJECT native      code for this machine's own processor, as OBJECT must be
# The compilers and their flags are lists of words.
# shellcheck disable=SC2086
set -eu
cd "$(dirname "$0")/.."
folder=$1 calls=$2 processor=x86_64
TOOLCHAIN_FOR=tests
. tests/toolchain.sh
if [ "${3:-}" = native ]; then
    CC=gcc CLANG=clang processor=$(uname -m)
fi
strict="-std=c99 -Wall -Wextra -Wpedantic -Werror -Iinclude"

mkdir -p "$folder"
set --
for level in O2 O3; do
    for program in plain queue; do
        $CC $strict -$level -DNAME=${program}_gcc_$level "-DFLAGS=\"-$level\"" -c bench/$program.c -o "$folder/$program-gcc-$level.o"
        $CLANG $strict -$level -DNAME=${program}_clang_$level "-DFLAGS=\"-$level\"" -c bench/$program.c -o "$folder/$program-clang-$level.o"
        set -- "$@" "$folder/$program-gcc-$level.o" "$folder/$program-clang-$level.o"
    done
done

# A static library of Rust is linked with these; the list is rustc's own (--print native-static-libs).
if command -v rustc > /dev/null && [ "$(rustc -vV | sed -n 's/^host: \([^-]*\)-.*/\1/p')" = "$processor" ]; then
    rustc --edition 2021 --crate-type staticlib -C opt-level=3 -C panic=abort bench/plain.rs -o "$folder/libplain_rust.a"
    set -- "$@" "-DRUSTC=\"$(rustc --version | cut -d ' ' -f 1-2)\"" "$folder/libplain_rust.a" \
        -lgcc_s -lutil -lrt -lpthread -lm -ldl -lc
fi
$CC $strict -O2 bench/bench.c bench/networks.c "$@" "$calls" -o "$folder/bench"
