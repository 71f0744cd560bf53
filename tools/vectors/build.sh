# What the programs over vectors share. A program in crates/ would be proved and run by the gate, so each of
# these is written into a copy of the repository, over the libraries that the checkout has built.

# `write_program NAME USES MODULE..` makes the copy, and in it the program of the main module
# vectors/NAME.txt and these modules, over the crates USES. It goes into the program's folder; `copy` is the
# copy's.
write_program() {
    local name=$1 uses=$2 top module
    shift 2
    top=$(cd "$(dirname "${BASH_SOURCE[0]}")/../.." && pwd)
    copy=$(mktemp -d)
    trap "rm -rf '$copy'" EXIT

    copy_crates "$top" "$copy"
    echo "vectors_$name: $uses" >>"$copy/crates.txt"
    mkdir -p "$copy/crates/vectors_$name/src" "$copy/crates/vectors_$name/proofs"
    cp "$top/tools/vectors/$name.txt" "$copy/crates/vectors_$name/src/main.rt"
    for module in "$@"; do
        cp "$top/tools/vectors/$module.txt" "$copy/crates/vectors_$name/src/$module.rt"
    done
    cd "$copy/crates/vectors_$name"
}

# Tries the program that was written on a file of vectors, compiled with checks and without a proof of its
# own. What it prints is then in `$copy/printed`, and what is told of the try in `$copy/log`.
try_program() {
    rt try --seconds 3600 --data "vectors=$1" -- vectors >"$copy/printed" 2>"$copy/log" </dev/null
}

# `compare NAME VECTORS USES MODULE..` tries such a program on a file of vectors, and ends with its status.
compare() {
    local name=$1 vectors
    vectors=$(realpath "$2")
    shift 2
    write_program "$name" "$@"
    if try_program "$vectors"; then
        cat "$copy/printed"
    else
        cat "$copy/printed"
        grep -q ' agree$' "$copy/printed" || cat "$copy/log" >&2
        return 1
    fi
}

# Copies every crate, and links the libraries that are built, where both folders are on one disk. What
# checks have kept besides is large, and serves none of this.
copy_crates() {
    local top=$1 copy=$2 built crate
    mkdir "$copy/crates"
    cp "$top/HANDLES" "$top/crates.txt" "$copy/"
    tar -C "$top/crates" --no-wildcards-match-slash --exclude='./*/out' -cf - . | tar -C "$copy/crates" -xf -
    for built in "$top"/crates/*/out/rlib; do
        if [ -d "$built" ]; then
            crate=$(basename "${built%/out/rlib}")
            mkdir -p "$copy/crates/$crate/out"
            cp -rl "$built" "$copy/crates/$crate/out/rlib" 2>/dev/null ||
                { rm -rf "$copy/crates/$crate/out/rlib" && cp -r "$built" "$copy/crates/$crate/out/rlib"; }
        fi
    done
}
