#!/usr/bin/env bash
# The hosts: the installed library, the tool and the block device, with clients that nobody here wrote. `make test` runs it too.
set -euo pipefail
cd "$(dirname "$0")/.."
missing=()
command -v pkg-config >/dev/null || missing+=(pkg-config)
command -v nbdkit >/dev/null || missing+=(nbdkit)
[ -e /usr/include/nbdkit-plugin.h ] || missing+=(nbdkit-plugin-dev)
command -v nbdcopy >/dev/null || missing+=(libnbd-bin)
command -v fio >/dev/null || missing+=(fio)
[ -x /sbin/mke2fs ] || missing+=(e2fsprogs)
if [ ${#missing[@]} -gt 0 ]; then
    as_root=()
    [ "$(id -u)" -eq 0 ] || as_root=(sudo)
    "${as_root[@]}" apt-get update -qq
    "${as_root[@]}" apt-get install -y -qq --no-install-recommends "${missing[@]}" >/dev/null
fi
mkdir -p target
flock target/hosts.lock make -s hosts # two that make them at once wait for each other
passed=0
for part in install tool sequences pages device; do
    started=$SECONDS
    said=$(python3 "tests/hosts_$part.py") || { echo "$said"; echo "$passed passed, 1 failed"; exit 1; }
    count=$(tail -n 1 <<<"$said" | sed -n 's/^\([0-9]*\) passed, 0 failed$/\1/p')
    [ -n "$count" ] || { echo "$said"; echo "$passed passed, 1 failed"; exit 1; }
    passed=$((passed + count))
    echo "hosts: $part, $count ($((SECONDS - started)) s)"
done
echo "$passed passed, 0 failed"
