#!/usr/bin/env bash
# Watches every store of the calls in the archive as it is shipped, for x86-64. With a word, the archive of that name.
set -euo pipefail
cd "$(dirname "$0")/.."
made=target/snapshot archive=${1:-target/staticlib/libngt.a}
mkdir -p "$made"
[ $# -gt 0 ] || tests/archive.sh ngt
compiler=(gcc) run=()
if [ "$(uname -m)" != x86_64 ]; then
    compiler=(x86_64-linux-gnu-gcc -static) run=(qemu-x86_64)
fi
"${compiler[@]}" -O1 -mno-red-zone -Wall -Wextra -std=c11 -o "$made/snapshot" tests/snapshot.c "$archive"
"${run[@]}" "$made/snapshot"
