#!/usr/bin/env bash
# Links the archive of the C interface as it is shipped, for x86-64, with the host in C, and runs it. Of its host the archive asks for
# memcpy and memset alone.
set -euo pipefail
cd "$(dirname "$0")/.."
made=target/host
mkdir -p "$made"
tests/archive.sh ngt
needs=$(nm -u target/staticlib/libngt.a | awk '$1 == "U" { print $2 }' | sort -u | tr '\n' ' ')
[ "$needs" = "memcpy memset " ] || { echo "the archive asks its host for: $needs"; exit 1; }
compiler=(gcc) run=()
if [ "$(uname -m)" != x86_64 ]; then
    compiler=(x86_64-linux-gnu-gcc -static) run=(qemu-x86_64)
fi
"${compiler[@]}" -O2 -Wall -Wextra -std=c11 -o "$made/host" tests/host.c target/staticlib/libngt.a
"${run[@]}" "$made/host"
