#!/bin/sh
# The tests in Rust and C. First the independent package native/, which needs no static library; then, over the static library, the package
# binding/, the C examples, the test in C, and a short run of the benchmark.
# The last line counts them all; the exit status is 0 only if none failed.
set -u
cd "$(dirname "$0")/.." || exit 2
library=crates/capi/out/libcapi.a
NATIVE_DATA=$(cd "${NATIVE_DATA:-crates/stored/data}" && pwd) || exit 2
export NATIVE_DATA

passed=0
failed=0
work=$(mktemp -d) || exit 2
trap 'rm -rf "$work"' EXIT

# one NAME COMMAND..: a test that passes if the command succeeds
one() {
    name=$1
    shift
    if "$@"; then
        passed=$((passed + 1))
        echo "native: $name: ok"
    else
        failed=$((failed + 1))
        echo "native: $name: FAILED"
    fi
}

# package NAME: its layout, its lints and its tests
package() {
    one "$1 layout" in_layout "$1"
    one "$1 lints" without_warning "$1"
    one "$1 tests stand in tests/" no_test_in_src "$1"
    rust_tests "$1"
}

in_layout() {
    (cd "$1" && cargo fmt --check)
}

without_warning() {
    (cd "$1" && cargo clippy -q --offline --all-targets -- -D warnings)
}

# a test in src/ would not be run: Cargo.toml says test = false there
no_test_in_src() {
    ! grep -rn '#\[test\]' "$1/src"
}

# the tests of a package, added up from cargo's own result lines; a failure that no such line tells counts as one
rust_tests() {
    (cd "$1" && cargo test --release --offline --no-fail-fast -- --nocapture) >"$work/cargo" 2>&1
    status=$?
    grep -E '^(bound|checking|figure|listing|planning|prompt|replanning|stored sheets|texts|watching|test result|differs|error)|FAILED|panicked' "$work/cargo"
    counts=$(sed -n 's/^test result: .* \([0-9][0-9]*\) passed; \([0-9][0-9]*\) failed;.*/\1 \2/p' "$work/cargo")
    good=$(echo "$counts" | awk '{ sum += $1 } END { print sum + 0 }')
    bad=$(echo "$counts" | awk '{ sum += $2 } END { print sum + 0 }')
    if [ "$status" -ne 0 ] && [ "$bad" -eq 0 ] || [ "$good" -eq 0 ]; then
        tail -n 20 "$work/cargo"
        bad=$((bad + 1))
    fi
    passed=$((passed + good))
    failed=$((failed + bad))
}

# rt proves only what has changed, so this is quick where the library is up to date
library() {
    (cd crates/capi && rt lib) >"$work/staticlib" 2>&1 && [ -f "$library" ] || { tail -n 20 "$work/staticlib"; return 1; }
}

# c_program SOURCE OPTION..: built in the work folder, without a warning, over the static library
c_program() {
    source=$1
    shift
    cc -std=c99 -Wall -Wextra -Werror -pedantic "$@" -I include "$source" "$library" -o "$work/$(basename "$source" .c)"
}

# c_example NAME ARGUMENT..: the C program prints what stands beside it
c_example() {
    example=$1
    shift
    c_program "examples/$example.c" &&
        "$work/$example" "$@" >"$work/$example.out" &&
        cmp "$work/$example.out" "examples/$example.expected"
}

# c_test NAME: the C program of tests/, built for the sanitisers, finds that all holds
c_test() {
    c_program "tests/$1.c" -g -O1 -fsanitize=address,undefined -fno-sanitize-recover=all && "$work/$1"
}

# every stored hard sheet, full or short, is timed, in listing, choosing, checking and round by round; both planners agree on pairs and rounds, and ours
# takes at most 1.5 times as long
benchmark() {
    (cd binding && cargo run -q --release --offline --bin bench -- 3) >"$work/bench" 2>&1
    status=$?
    cat "$work/bench"
    [ "$status" -eq 0 ] && grep -q ' 5[0-9]*-short-' "$work/bench" && tail -n 1 "$work/bench" | grep -q '^bench: .* of [1-9][0-9]* ratios at most 1.5'
}

package native
one "static library" library
package binding
one "C example: plan" c_example plan_a
one "C example: bound" c_example bound_a
one "C example: choose" c_example choose_a
one "C example: check" c_example check_a
one "C example: replan" c_example replan_a
one "C example: watch" c_example watch_hard "$NATIVE_DATA/509-ladder-moving-shuffled-window.sheet"
one "C: damaged states under the address sanitiser" c_test watching
one "benchmark" benchmark

echo "$passed passed, $failed failed"
[ "$failed" -eq 0 ]
