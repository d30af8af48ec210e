# Sourced: is_young FILE, whether what was made of the crates is there and younger than the toolchain and every file and folder of the crates,
# but for what the toolchain itself makes in a crate's out/. What is made has to bear the time at which its making began.
is_young() {
    local made=$1
    [ -e "$made" ] && [ ! crates.txt -nt "$made" ] && [ ! "$(dirname "$(rt doc)")/KIT-ID" -nt "$made" ] \
        && [ -z "$(find crates -mindepth 2 -name out -prune -o -newer "$made" -print -quit)" ]
}
