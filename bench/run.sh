#!/usr/bin/env bash
# Builds the proved library and its peers, and times both. All that it makes is under target/. It ends with 1 where lanes are lost.
set -euo pipefail
cd "$(dirname "$0")/.."
bash tests/needs.sh
made=target/bench
mkdir -p "$made"
machine=$(uname -m)
compiler=$(dirname "$(rt doc)")/toolchain/bin/clang
own=-march=native
[ "$machine" = x86_64 ] || own=-mcpu=native

# The module once as built, and once more for the processor at hand, with `here_` before each name, so that one program has both.
build() {
    local crate=$1 names
    bash tests/native.sh "$crate" "$made/$crate.o" "$made/$crate.bc"
    "$compiler" --target="$machine-unknown-linux-gnu" "$own" -O3 -fPIC -Wno-override-module -c -x ir "$made/$crate.bc" -o "$made/$crate-own.o"
    names=$(nm -g --defined-only "$made/$crate-own.o" | awk '{ print $3, "here_" $3 }')
    objcopy --redefine-syms=<(echo "$names") "$made/$crate-own.o" "$made/$crate-here.o"
}
for crate in primitives aes_primitives ngt; do
    build "$crate" >"$made/$crate.log" 2>&1 || { tail -n 40 "$made/$crate.log"; exit 1; }
done

# OpenSSL by its Debian package; without it its column is empty.
as_root=()
[ "$(id -u)" -eq 0 ] || as_root=(sudo)
[ -e /usr/include/openssl/evp.h ] || "${as_root[@]}" apt-get install -y -qq libssl-dev >"$made/libssl.log" 2>&1 || true
openssl=()
[ ! -e /usr/include/openssl/evp.h ] || openssl=(-DWITH_OPENSSL -lcrypto)

flags=(-O3 -Wall -Wextra -std=c11)
peers=(bench/peer_*.c)
echo "$machine, $(grep -m1 -E 'model name|CPU part' /proc/cpuinfo | sed 's/.*: //'); load $(cut -d' ' -f1-3 /proc/loadavg)"
echo "as built: $([ "$machine" = x86_64 ] && echo "the toolchain's archive, for plain x86-64 (SSE2)" || echo "the toolchain's module at -O3"); for this processor: the same module by $own; peers: $(gcc --version | head -n 1), -O3"
gcc "${flags[@]}" -o "$made/bench" bench/bench.c "${peers[@]}" "$made"/{primitives,aes_primitives}{,-here}.o "${openssl[@]}"
gcc "${flags[@]}" -o "$made/mount" bench/mount.c "${peers[@]}" "$made"/ngt.o "$made"/ngt-here.o
gcc "${flags[@]}" -o "$made/changes" bench/changes.c "${peers[@]}" "$made"/ngt.o "$made"/ngt-here.o
gcc "${flags[@]}" -o "$made/summary" bench/summary.c "$made"/ngt.o
gcc "${flags[@]}" -o "$made/handing" bench/handing.c "${peers[@]}" "$made"/ngt.o "$made"/ngt-here.o
lost=0
"$made/bench" || lost=1
if [ "$machine" = x86_64 ] && [ ${#openssl[@]} -gt 0 ]; then
    echo "once more, OpenSSL held to SSSE3 (OPENSSL_ia32cap); it has no vectors for SSE2 alone"
    OPENSSL_ia32cap='~0x1000000000000000:0' "$made/bench" | tail -n 7 | grep -v LOST
fi
"$made/mount"
"$made/summary"
"$made/changes"
"$made/handing"

# Once more with the peers by the compiler and at the level of the proved module; the toolchain has no C headers of its own.
headers=(-nostdinc -isystem "$(gcc -print-file-name=include)" -isystem "/usr/include/$(gcc -print-multiarch)" -isystem /usr/include)
objects=()
for peer in "${peers[@]}"; do
    object=$made/$(basename "$peer" .c).o
    "$compiler" "${flags[@]}" -fPIE "${headers[@]}" -c -o "$object" "$peer"
    objects+=("$object")
done
for program in changes handing; do
    gcc "${flags[@]}" -o "$made/$program-same" "bench/$program.c" "${objects[@]}" "$made"/ngt.o "$made"/ngt-here.o
done
echo "peers by the toolchain's clang -O3"
"$made/changes-same"
"$made/handing-same"
exit "$lost"
