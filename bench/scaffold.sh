# What the scripts of this folder share; each reads it first, as `. "$(dirname "$0")/scaffold.sh"`. It makes a temporary directory
# $work, which goes when the script ends, for a repository of the crates that are measured and one more crate that calls them.
#
# That crate's files stand in a folder of this one under names that end in .in, since the gate refuses sources outside of crates/.
set -eu
bench=$(cd "$(dirname "$0")" && pwd)
top=$(dirname "$bench")
work=$(mktemp -d)
trap 'rm -rf "$work"' EXIT
trap 'exit 1' HUP INT TERM

# needs TOOL..: ends the script where one is missing.
needs() {
    for tool; do
        command -v "$tool" >/dev/null || { echo "$(basename "$0"): $tool is missing" >&2; exit 1; }
    done
}

# take CRATE..: these crates as they stand, with what crates.txt says of them. Tests and edits stay behind.
take() {
    cp "$top/HANDLES" "$work/HANDLES"
    for name; do
        mkdir -p "$work/crates/$name"
        for part in src specs proofs; do
            [ ! -d "$top/crates/$name/$part" ] || cp -r "$top/crates/$name/$part" "$work/crates/$name/"
        done
        grep -E "^$name[ :]" "$top/crates.txt" >>"$work/crates.txt"
    done
}

# caller FOLDER LINE: the crate that the line for crates.txt names, made of the files in this folder.
caller() {
    called=${2%%[ :]*}
    printf '%s\n' "$2" >>"$work/crates.txt"
    cp -r "$bench/$1" "$work/crates/$called"
    mkdir -p "$work/crates/$called/proofs"
    [ -d "$work/crates/$called/specs" ] || { mkdir "$work/crates/$called/specs" && : >"$work/crates/$called/specs/Lib.antt"; }
    find "$work/crates/$called" -name '*.in' | while read -r file; do mv "$file" "${file%.in}"; done
}

# built CRATE WORD..: what `rt WORD..` makes of the crate; where it can't, its last words.
built() {
    (cd "$work/crates/$1" && shift && rt "$@") >"$work/built.log" 2>&1 || { tail -20 "$work/built.log"; exit 1; }
}

# beside_c FOLDER CRATE: runs the folder's main.c, which compares the static library CRATE with the folder's plain.c.
beside_c() {
    built "$2" lib
    clang -O2 -march=x86-64-v2 -I "$bench" -o "$work/bench" "$bench/$1/main.c" "$bench/$1/plain.c" "$work/crates/$2/out/lib$2.a"
    "$work/bench"
}
