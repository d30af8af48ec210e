#!/usr/bin/env bash
# host/lib.sh MACHINE OUT: the proved library as an archive for a processor, x86_64 or aarch64.
# On x86-64 it is the toolchain's own archive. For another processor that archive can't be linked, so the very module that the toolchain
# compiles is compiled once more, by the same compiler at the same level.
set -euo pipefail
cd "$(dirname "$0")/.."
machine=$1 out=$2
archive=target/staticlib/libngt.a module=target/staticlib/ngt.bc

. tests/young.sh

if [ "$machine" = x86_64 ]; then
    tests/archive.sh ngt
    cp "$archive" "$out"
    exit 0
fi
mkdir -p target/staticlib
if ! is_young "$module"; then # making it proves the crate once more
    touch "$module.began"
    bash tests/module.sh ngt "$module"
    touch -r "$module.began" "$module"
fi
made=$(mktemp -d)
trap 'rm -rf "$made"' EXIT
kit=$(dirname "$(rt doc)")
"$kit/toolchain/bin/clang" --target="$machine-unknown-linux-gnu" -O3 -fPIC -Wno-override-module -c -x ir "$module" -o "$made/ngt.o" 2>"$made/said" || { cat "$made/said"; exit 1; }
rm -f "$out"
ar rcs "$out" "$made/ngt.o"
