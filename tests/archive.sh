#!/usr/bin/env bash
# archive.sh CRATE: the archive target/staticlib/libCRATE.a as `rt lib` makes it. What C calls of a library stands in a crate CRATE_c of its own.
# One that is younger than the toolchain and every file of the crates is left as it is. An archive bears the time at which its
# making began, so that a file changed meanwhile makes it old. Two that ask at once wait for each other.
set -euo pipefail
cd "$(dirname "$0")/.."
crate=$1 folder=target/staticlib
made=$crate
[ ! -d "crates/${crate}_c" ] || made=${crate}_c
archive=$folder/lib$crate.a

. tests/young.sh
mkdir -p "$folder"
exec 9>"$folder/$crate.lock"
flock 9
! is_young "$archive" || exit 0
rm -f "$archive"
touch "$folder/$crate.began"
(cd "crates/$made" && rt lib) >"$folder/$crate.log" 2>&1 9>&- || { tail -n 20 "$folder/$crate.log"; exit 1; }
cp "crates/$made/out/lib$made.a" "$archive"
touch -r "$folder/$crate.began" "$archive"
