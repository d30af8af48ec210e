#!/usr/bin/env bash
# The hosts: fio through nbdkit on our plugin, on the same plugin over the plain C peer, and on nbdkit's own file and memory plugins; then
# the tool's mount and report of the largest volume whose metadata is whole (N 16,384, P 64), over the proved library and over the peer.
# All that it makes is under target/bench/.
set -euo pipefail
cd "$(dirname "$0")/.."
make -s hosts >/dev/null
made=$PWD/target/hosts/$(uname -m) here=$PWD/target/bench/hosts
rm -rf "$here"
mkdir -p "$here"

# The hosts once more, with the peer's calls for the proved ones; what has no peer stays proved.
peer=(-Dngt_mount=peer_mount -Dngt_read=peer_read -Dngt_write=peer_write -Dngt_sheet_line=peer_sheet_line)
words=(gcc -std=c11 -D_GNU_SOURCE -O3 -fPIC -Iinclude "${peer[@]}")
"${words[@]}" -o "$here/peer-ngt" host/ngt/*.c host/common/*.c bench/peer_*.c "$made/libngt.a"
# shellcheck disable=SC2046
"${words[@]}" $(pkg-config --cflags nbdkit) -shared -fvisibility=hidden -pthread -o "$here/peer-plugin.so" host/nbdkit/*.c host/common/*.c bench/peer_*.c -Wl,--exclude-libs,ALL "$made/libngt.a"
cd "$here"
export PATH=$made:$PATH
echo "load $(cut -d' ' -f1-3 /proc/loadavg)"

# served NAME WORD..: random writes, then random reads, 64 KiB at a time over 64 MiB, five seconds each; MiB/s of both.
served() {
    local name=$1 way
    shift
    printf '%-8s' "$name"
    for way in write read; do
        nbdkit -U - "$@" --run "fio --name=$way --ioengine=nbd --uri=\$uri --rw=rand$way --bs=64k --size=64m --time_based --runtime=5 --iodepth=8 --randseed=1 --output-format=json --aux-path=$here" |
            python3 -c "import json, sys; said = sys.stdin.read(); print(f'  rand$way {json.loads(said[said.index(\"{\"):])[\"jobs\"][0][\"$way\"][\"bw\"] / 1024:8.0f} MiB/s', end='')"
    done
    echo
}
ngt secret secret
for name in ours peer; do
    ngt format "$name" --secret secret --counter "$name-counter" --nuggets 1024 --flakes 16 --size 4096
done
truncate -s 64M plain
served ours "$made/nbdkit-ngt-plugin.so" ours secret=secret counter=ours-counter
served peer ./peer-plugin.so peer secret=secret counter=peer-counter
served file file plain
served memory memory 64M

# least TOOL WORD: seconds, the least of nine runs.
least() {
    python3 - "$@" <<'RUN'
import subprocess, sys, time
words, best = [*sys.argv[1:], "large", "--secret", "secret", "--counter", "large-counter"], 1e9
for _ in range(9):
    started = time.monotonic()
    subprocess.run(words, check=True, capture_output=True)
    best = min(best, time.monotonic() - started)
print(f"{best:.3f}")
RUN
}
ngt format large --secret secret --counter large-counter --nuggets 16384 --flakes 64 --size 64
ngt report large --secret secret --counter large-counter >ours-line
./peer-ngt report large --secret secret --counter large-counter >peer-line
cmp ours-line peer-line
for word in info report; do
    ours=$(least ngt "$word") peers=$(least ./peer-ngt "$word")
    echo "ngt $word, N 16384, P 64: $ours s, the peer $peers s, $(python3 -c "print(f'{$peers / $ours:.2f}')") of C"
done
