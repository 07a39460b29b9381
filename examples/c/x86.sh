# Sourced with $top set: builds C over the static library, which is for x86-64, and runs it there or under qemu.
archive=$top/target/staticlib/libtandrekily.a
built=$top/target/c

# need TOOL WHERE-FROM
need() {
    command -v "$1" >/dev/null || { echo "$(basename "$0"): $1 is missing; it comes with $2" >&2; exit 2; }
}

if [ "$(uname -m)" = x86_64 ]; then
    compiler=cc
    linking=
    emulator=
    need cc "Debian's gcc"
else
    compiler=x86_64-linux-gnu-gcc
    linking=-static # the emulator then needs no libraries for x86-64
    emulator=qemu-x86_64
    need x86_64-linux-gnu-gcc "Debian's gcc-x86-64-linux-gnu and libc6-dev-amd64-cross"
    need qemu-x86_64 "Debian's qemu-user"
fi

# Proves and builds the library where it is absent or older than its source.
library() {
    [ ! -e "$archive" ] || [ -n "$(find "$top/crates" -name '*.rt' -newer "$archive")" ] || return 0
    need rt "the Rattle toolchain"
    echo "$(basename "$0"): the library is proved and built first, which takes some minutes" >&2
    said=$("$top/library" 2>&1) || { printf '%s\n' "$said" >&2; exit 1; }
}

# compile NAME FILE-OR-OPTION...
compile() {
    mkdir -p "$built"
    name=$1
    shift
    "$compiler" -std=c99 -O2 -Wall -Wextra -Wpedantic $linking -I"$top/include" "$@" "$archive" -o "$built/$name"
}

# start NAME ARGUMENT...
start() {
    program=$built/$1
    shift
    $emulator "$program" "$@"
}
