# Read in by the commands of this folder. Goes to the repository's root and builds the Rust side into target/harness, by rustc
# alone and only when one of its sources, oxmpl's files or the compiler changed.

cd "$(dirname "${BASH_SOURCE[0]}")/.." || exit 1
oxmpl=${OXMPL_SRC:-../shared/docs/src}/oxmpl/src/geometric/planners
out=target/harness
planners=(rrt rrt_connect rrt_star prm)

# Without rustc or oxmpl's files there is nothing to compare with; that is said, and is no failure.
need_rust() {
    command -v rustc >/dev/null || { echo "harness: rustc is not at hand; nothing done"; exit 0; }
    local planner
    for planner in "${planners[@]}"; do
        [ -r "$oxmpl/$planner.rs" ] || { echo "harness: $oxmpl/$planner.rs is not at hand; nothing done"; exit 0; }
    done
}

# compile NAME SOURCE WORDS..: one crate at the optimisation of a release. Functions begin at multiples of 64 bytes, and places that are
# only jumped to at those of 32, so that a time does not hang on where code happens to lie.
compile() {
    local name=$1 source=$2
    shift 2
    PLANNERS=$(cd "$oxmpl" && pwd) rustc --edition 2024 -C opt-level=3 -C codegen-units=1 -D warnings \
        -C llvm-args=-align-all-functions=6 -C llvm-args=-align-all-nofallthru-blocks=5 \
        --out-dir "$out" -L "$out" --crate-name "$name" "$source" "$@"
}

inputs_now() {
    rustc --version
    find harness -name '*.rs' -o -name build.sh | sort | xargs sha256sum
    for planner in "${planners[@]}"; do sha256sum <"$oxmpl/$planner.rs"; done
}

build_rust() {
    need_rust
    mkdir -p "$out"
    local inputs
    inputs=$(inputs_now)
    [ "$inputs" != "$(cat "$out/inputs" 2>/dev/null)" ] || return 0
    rm -f "$out/inputs"
    compile log harness/standins/log.rs --crate-type rlib &&
        compile rand harness/standins/rand.rs --crate-type rlib &&
        compile oxmpl harness/standins/lib.rs --crate-type rlib --extern log --extern rand &&
        compile oracle harness/oracle.rs --extern oxmpl --extern rand &&
        compile scripts harness/scripts.rs --extern oxmpl || exit 1
    printf '%s\n' "$inputs" >"$out/inputs"
}
