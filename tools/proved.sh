# What bin/hosts and bin/browser share: the static library of crates/expr_c, over the libraries that the gate has left. They set `kit`,
# and are at the top.

# The crates below expr_c whose library does not exist, or is older than a source of it.
outdated() {
    local name library part
    bin/kept crates | cut -d : -f 1 | grep -vx expr_c | while read -r name; do
        library=crates/$name/out/rlib/$name.rlib
        [ -d "$library" ] && [ -z "$(
            for part in src specs proofs; do [ ! -d "crates/$name/$part" ] || find "crates/$name/$part" -type f -newer "$library"; done
        )" ] || echo "$name"
    done
}
# The static library over the libraries in crates/*/out/rlib: `archive BACKEND TOOLCHAIN FILE`. It is compiled of the check that
# bin/prove has kept. The compiler says where that check read other sources (status 2); then the library is proved here.
archive() {
    local words=(--crate-name expr_c --crate-type staticlib --backend "$1" --links expr_c=) folder status=2
    words+=(--extern "std=$kit/rlibs/std.rlib" -L "dependency=$kit/rlibs" --toolchain "$2")
    words+=(--antt-project "$kit/rattle/logic/antt-project.json")
    words+=(--extern "expr_engine=$PWD/crates/expr_engine/out/rlib/expr_engine.rlib" --extern "expr_exchange=$PWD/crates/expr_exchange/out/rlib/expr_exchange.rlib")
    for folder in "$PWD"/crates/*/out/rlib; do words+=(-L "dependency=$folder"); done
    (
        cd crates/expr_c || exit 1
        if [ -d out/checked ]; then
            "$kit/bin/rattle" build "${words[@]}" --crate-checked out/checked -o "$3" src/lib.rt
            status=$?
        fi
        [ $status -eq 2 ] || exit $status
        "$kit/bin/rattle" build "${words[@]}" --logic-built "$kit/logic_built" --jobs "$(../../bin/lanes)" -o "$3" src/lib.rt
    )
}
