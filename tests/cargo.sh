# shellcheck shell=bash
# What the tests of a Rust package share, for scripts that have sourced tools/arguments.sh.

script=${script:?}

# cargo_tests FOLDER: runs the package's tests, examples of its documentation too, and says how many pass; where one does not, all that was
# printed.
cargo_tests() {
    local log
    log=$(mktemp)
    if ! cargo test --quiet --offline --manifest-path "$1/Cargo.toml" >"$log" 2>&1; then
        cat "$log"
        rm "$log"
        return 1
    fi
    awk -v name="$script" '/^test result: ok/ { n += $4 } END { print name ": " n " tests and examples pass"; exit n == 0 }' "$log"
    rm "$log"
}
