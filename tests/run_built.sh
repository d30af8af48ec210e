#!/usr/bin/env bash
# Runs a proved program on its standard input: tests/run_built.sh NAME [ARGUMENT ..]
# `rt run` builds it as crates/NAME/out/NAME; one that is there and younger than every source is taken as it is.
set -euo pipefail
cd "$(dirname "$0")/.."
name=$1 program=crates/$1/out/$1
shift
. tests/young.sh

if ! is_young "$program"; then
    mkdir -p target/run
    exec 9>"target/run/$name.lock"
    flock 9
    if ! is_young "$program"; then
        touch "target/run/$name.began"
        (cd "crates/$name" && rt run </dev/null) >"target/run/$name.log" 2>&1 9>&- || { tail -n 20 "target/run/$name.log" >&2; exit 1; }
        touch -r "target/run/$name.began" "$program"
    fi
    exec 9>&-
fi
exec "$program" "$@"
