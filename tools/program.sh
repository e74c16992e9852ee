# What tools/nodes.sh and tools/pieces.sh share: `make_program NAME CRATE..` makes the program in tools/NAME over these crates without a
# proof (bin/quick), in a copy of the sources, in some minutes. Then it is "$copy/expr_NAME". The copy goes when the script ends.
make_program() {
    local top name=$1
    shift
    top=$(cd "$(dirname "${BASH_SOURCE[0]}")/.." && pwd)
    copy=$(mktemp -d)
    trap 'rm -rf "$copy"' EXIT
    git -C "$top" archive HEAD bin crates crates.txt tools VERSION HANDLES | tar -x -C "$copy"
    mkdir -p "$copy/crates/expr_$name/src"
    cp "$top/tools/$name/expr_$name/src/main.rt.txt" "$copy/crates/expr_$name/src/main.rt"
    echo "expr_$name: $*" >>"$copy/crates.txt"
    "$copy/bin/quick" --one "expr_$name:expr_$name" "$copy" >&2
}
