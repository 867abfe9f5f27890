#!/usr/bin/env bash
# Times the generalized automata of some families of formulas. README.md beside this says how.
set -eu
top=$(cd "$(dirname "$0")/.." && pwd)
work=${1:-$(mktemp -d)}
if [ ! -x "$work/crates/reach_bench/out/reach_bench" ]; then
    cp -r "$top/crates" "$top/crates.txt" "$top/HANDLES" "$work/"
    mkdir -p "$work/crates/reach_bench/src"
    cp "$top/bench/reach.main" "$work/crates/reach_bench/src/main.rt"
    echo "reach_bench: ltl_alt ltl_formula ltl_sets ltl_spec" >> "$work/crates.txt"
    (cd "$work/crates/reach_bench" && rt run -- > "$work/log" 2>&1) || true
fi
program=$work/crates/reach_bench/out/reach_bench

# joined TEXT FROM TO: the text for each number, with the number for N, and && between them.
joined() {
    local all="" n
    for n in $(seq "$2" "$3"); do
        all="$all${all:+ && }${1//N/$n}"
    done
    echo "$all"
}

# timed LABEL FORMULA
timed() {
    local start end answer
    start=$(date +%s%N)
    answer=$("$program" "$2") || true
    end=$(date +%s%N)
    printf '%-28s %8d ms  %s\n' "$1" $(((end - start) / 1000000)) "$answer"
}

for n in 5 6 7 8 9; do
    timed "[]<>p0 && .. && []<>p$n" "$(joined '[]<>pN' 0 "$n")"
    timed "<>p0 && .. && <>p$n" "$(joined '<>pN' 0 "$n")"
    timed "(p0 U q0) && .. (p$n U q$n)" "$(joined '(pN U qN)' 0 "$n")"
done
timed "<>p0 && .. && <>p12" "$(joined '<>pN' 0 12)"
timed "(a0 || q) && .. (a39 || q)" "$(joined '(aN || q)' 0 39)"
timed "<>((a0 || q) && ..)" "<>($(joined '(aN || q)' 0 39))"
timed "X((a0 || q) && ..)" "X($(joined '(aN || q)' 0 39))"
echo "built in $work"
