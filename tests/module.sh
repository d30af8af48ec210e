#!/usr/bin/env bash
# module.sh CRATE OUT: the very module that the toolchain compiles into the crate's archive, kept as it is handed to the compiler.
# What C calls of a library stands in a crate CRATE_c of its own.
set -euo pipefail
cd "$(dirname "$0")/.."
crate=$1 out=$(realpath "$2")
[ ! -d "crates/${crate}_c" ] || crate=${crate}_c
kit=$(dirname "$(rt doc)")
mine=$(mktemp -d)
trap 'rm -rf "$mine"' EXIT

# everything in the folder but some names
all_but() {
    local part
    mkdir -p "$mine/kit/$1"
    for part in "$kit/$1"/*; do
        [[ " ${*:2} " == *" $(basename "$part") "* ]] || ln -s "$part" "$mine/kit/$1/"
    done
}
all_but . bin toolchain
all_but bin rt rtlib.py
cp "$kit/bin/rt" "$kit/bin/rtlib.py" "$mine/kit/bin/" # they find the kit by where they lie
all_but toolchain bin
all_but toolchain/bin clang
cat >"$mine/kit/toolchain/bin/clang" <<KEEP
#!/usr/bin/env bash
for word in "\$@"; do case \$word in *.bc) cp "\$word" "$mine/module.bc" ;; esac; done
exec "$kit/toolchain/bin/clang" "\$@"
KEEP
chmod +x "$mine/kit/toolchain/bin/clang"
(cd "crates/$crate" && "$mine/kit/bin/rt" lib)
cp "$mine/module.bc" "$out"
