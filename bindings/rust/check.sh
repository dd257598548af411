#!/usr/bin/env bash
# bindings/rust/check.sh: the crate's tests, its documentation and its form. SIRVESHAN_LIB_DIR names a folder with another libsirveshan.a.
# On another processor than x86-64 tools/x86.sh finds what builds and runs them, and that folder is needed.
set -euo pipefail
here=$(dirname "$(readlink -f "$0")")
root=$(cd "$here/../.." && pwd)
. "$root/tools/x86.sh"
. "$root/bindings/library.sh"
find_library
cd "$here"
x86_cargo test --offline --quiet
RUSTDOCFLAGS="-D warnings" x86_cargo doc --offline --quiet --document-private-items
if cargo fmt --version > /dev/null 2>&1; then cargo fmt --check; else echo "no cargo fmt: the form was not looked at"; fi
if is_x86 && cargo clippy --version > /dev/null 2>&1; then
    cargo clippy --offline --quiet --all-targets -- -D warnings
else
    echo "no cargo clippy: not run"
fi
# What is missing is said plainly, and how to get it: a library, a processor that it is for.
told() { # WORDS CARGO..: the build fails and says so
    local said
    ! said=$("${@:2}" 2>&1) || stop 1 "this was built, and should not: ${*:2}"
    grep -qF "$1" <<< "$said" || stop 1 "not said: $1, but: $said"
}
SIRVESHAN_LIB_DIR=$here/nowhere told "$here/nowhere/libsirveshan.a is not there" x86_cargo build --offline
SIRVESHAN_LIB_DIR='' told "The proved library is for x86-64" cargo build --offline --target aarch64-unknown-linux-gnu
echo "tests, documentation and form: passed"
