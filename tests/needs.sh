#!/usr/bin/env bash
# What the commands need beyond the toolchain itself, by Debian package name.
set -euo pipefail
command -v rt >/dev/null || { echo "the Rattle toolchain (rt) is not here"; exit 1; }
missing=()
command -v gcc >/dev/null || missing+=(gcc libc6-dev)
command -v python3 >/dev/null || missing+=(python3)
python3 -c 'import cryptography' 2>/dev/null || missing+=(python3-cryptography)
PATH=$PATH:/usr/sbin:/sbin command -v mke2fs >/dev/null || missing+=(e2fsprogs)
[ ! -e /dev/mapper/control ] || PATH=$PATH:/usr/sbin:/sbin command -v cryptsetup >/dev/null || missing+=(cryptsetup-bin)
[ ${#missing[@]} -eq 0 ] && exit 0
as_root=()
[ "$(id -u)" -eq 0 ] || as_root=(sudo)
"${as_root[@]}" apt-get update -qq
"${as_root[@]}" apt-get install -y -qq "${missing[@]}"
