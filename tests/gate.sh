#!/usr/bin/env bash
# The whole gate. Each step adds what it passed; the first that fails ends the run.
set -uo pipefail
cd "$(dirname "$0")/.."
passed=0
started=$SECONDS

# Steps that run beside each other: what each is, by its process, and the file that holds what it says.
set -m
declare -A doing=() saying=()
stop() {
    local process
    for process in "${!doing[@]}"; do
        disown "$process"
        kill -- "-$process"
        rm -f "${saying[$process]}"
    done 2>/dev/null
    doing=()
}
trap stop EXIT
trap 'exit 130' INT TERM

fails() {
    stop
    echo "gate: $1"
    echo "$passed passed, 1 failed"
    exit 1
}

# A step that is one check.
holds() {
    local what=$1
    shift
    "$@" || fails "$what"
    passed=$((passed + 1))
    echo "gate: $what ($((SECONDS - started)) s)"
}

# Adds what a step counted, given its status and its last line, which has to be 'N passed, 0 failed'.
adds() {
    local what=$1 status=$2 last=$3
    [ "$status" -eq 0 ] || fails "$what"
    [[ $last =~ ^([0-9]+)\ passed,\ 0\ failed$ ]] || fails "$what: its last line is '$last'"
    [ "${BASH_REMATCH[1]}" -gt 0 ] || fails "$what: it ran nothing"
    passed=$((passed + BASH_REMATCH[1]))
    echo "gate: $what ($((SECONDS - started)) s)"
}

# A step that counts its own, shown as it goes.
counts() {
    local what=$1 said last status
    shift
    said=$(mktemp)
    "$@" 2>&1 | tee "$said"
    status=${PIPESTATUS[0]} last=$(tail -n 1 "$said")
    rm -f "$said"
    adds "$what" "$status" "$last"
}

# Waits for one of the steps that run; what it said is shown whole.
ended() {
    local process status what said last
    while true; do
        for process in "${!doing[@]}"; do
            kill -0 "$process" 2>/dev/null || break 2
        done
        sleep 0.2
    done
    wait "$process"
    status=$? what=${doing[$process]} said=${saying[$process]}
    last=$(tail -n 1 "$said")
    cat "$said"
    rm -f "$said"
    unset "doing[$process]" "saying[$process]"
    adds "$what" "$status" "$last"
}

# A step that counts its own, beside one other: two cores, two steps.
beside() {
    local what=$1 said
    shift
    [ ${#doing[@]} -lt 2 ] || ended
    said=$(mktemp)
    "$@" >"$said" 2>&1 </dev/null &
    doing[$!]=$what saying[$!]=$said
}

every_crate_is_listed() {
    local folder
    for folder in crates/*/; do
        grep -Eq "^$(basename "$folder")( staticlib)?:" crates.txt || { echo "$folder is not in crates.txt"; return 1; }
    done
}

# Every crate from its sources, every edit, every program and every test: the toolchain's own gate, over the whole repository. It refuses what
# isn't laid out, and passes over an edit that can't be applied, which this doesn't.
proves() {
    mkdir -p target
    rt ci 2>&1 | tee target/ci.log
    local status=${PIPESTATUS[0]}
    [ "$status" -eq 0 ] || return 1
    grep -q '^rt: ok' target/ci.log || { echo "no line 'rt: ok'"; return 1; }
    ! grep -Eq '^rt: ok.*, [0-9]+ bad' target/ci.log || { echo "an edit can't be applied"; return 1; }
}

holds "what it needs is here" tests/needs.sh
holds "every crate is listed" every_crate_is_listed
counts "every public function has its theorem of one outcome" python3 tests/promised.py
counts "what a function asks of its caller is on the page" python3 tests/required.py
counts "what the pages name is in the repository" python3 tests/names.py
counts "every crate is proved, every program writes its stdout, every edit is refused" proves
counts "every edit is refused by a fact" python3 tests/first_errors.py

# The first makes the archive of the C interface; those that don't use it come beside it.
beside "a host in C links the archive and runs" bash tests/host.sh
beside "the second program holds against the documents" python3 second/check.py
beside "the primitives agree with independent ones" python3 tests/primitives.py
beside "AES-256 agrees with Debian's library" python3 tests/aes.py
beside "tags of version 2 agree with Debian's library" python3 tests/tags.py
beside "keys, pads, tags, leaves, nodes, path and whole agree with the second program" python3 tests/parts.py
beside "the sheet agrees with the second program" python3 tests/sheet.py
beside "the auditor's page agrees with the second program" python3 tests/audit.py
beside "two copies of a drive are compared as the second program does" python3 tests/compare.py
beside "the calls agree with the second program through the C interface" python3 tests/calls.py
beside "histories of calls agree with the second program to the byte" python3 tests/histories.py
beside "two volumes compared agree with the second program through the C interface" python3 tests/twins.py
beside "a filesystem goes through import, export and a reader of its own" python3 tests/crypt.py
beside "summaries agree with the second program to the byte" python3 tests/summaries.py
beside "moves between versions agree with the second program to the byte" python3 tests/moves.py
beside "lengths and lines agree with the second program through the C interface" python3 tests/lines.py
beside "memory holds contents in the caller's buffer alone, and no byte of the volume is stored twice" bash tests/snapshot.sh
beside "calls that may store nothing run where nothing can be stored" python3 tests/readonly.py
beside "README.md does as written" python3 tests/readme.py
beside "docs/HANDBOOK.md does as written" python3 tests/handbook.py
beside "the fleet's sheet agrees with the second program" python3 tests/fleet.py
beside "library, tool and block device serve clients that nobody here wrote" bash tests/hosts.sh
while [ ${#doing[@]} -gt 0 ]; do ended; done
echo "gate: $((SECONDS - started)) s in all"
echo "$passed passed, 0 failed"
