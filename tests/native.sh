#!/usr/bin/env bash
# native.sh CRATE OUT [MODULE]: the crate's exported functions as the toolchain's own archive, for x86-64.
# With a third word the module that was compiled is kept there.
set -euo pipefail
cd "$(dirname "$0")/.."
crate=$1 out=$2 module=${3:-}
[ -z "$module" ] || bash tests/module.sh "$crate" "$module"
tests/archive.sh "$crate"
cp "target/staticlib/lib$crate.a" "$out"
