# shellcheck shell=bash disable=SC2034,SC2154
# To be sourced by the project's bash scripts, which set root to the project's folder first. How its parts are proved, built and run here.
# The toolchain runs on x86-64 and compiles for it; this file alone knows what runs the static library's callers on another processor.
#
#     program NAME         crates/NAME/out/NAME, proved and built of the sources as they stand; quiet where nothing has changed
#     library              sets archive: crates/sirveshan/out/libsirveshan.a of the sources as they stand
#     find_x86             sets x86_static (words before a program that is linked statically for x86-64; none on x86-64 itself)
#     find_x86_cc          sets x86_cc (a C compiler for x86-64 whose programs x86_static runs), and what find_x86 sets
#     x86_cargo WORDS      cargo, building for x86-64; what it builds stands in $x86_folder of its target folder
#     need TOOL PURPOSE    ends the script with a plain line when a tool is missing
#
# A script ends with the status $missing when a tool is missing: 77, which tools/check-all counts as skipped, unless the script sets another.
missing=${missing:-77}
toolchain="rattle-kit-13f logic dac8208d650f15bf"
script=$(readlink -f "$0")
script=${script#"$root"/}

stop() { # STATUS WORDS
    echo "$script: ${*:2}" >&2
    exit "$1"
}

need() { # TOOL PURPOSE
    command -v "$1" > /dev/null 2>&1 || stop "$missing" "$1 is missing: ${*:2}"
}

need_rt() {
    need rt "the Rattle toolchain has to be on the path, which runs on x86-64. This project was proved with $toolchain (as \`rt version\` prints it)"
}

# Runs rt's command in a crate's folder, with nothing on standard input. Tells each crate that is proved, as it goes; all that was said where
# it fails.
in_crate() { # NAME WORDS
    local log
    log=$(mktemp)
    if ! (cd "$root/crates/$1" && rt "${@:2}" < /dev/null 2>&1) | tee "$log" | sed -un "s|^rt: chose .* for \(.*\)\$|$script: proving \1|p" >&2; then
        cat "$log" >&2
        rm -f "$log"
        stop 2 "$1 is not proved and built"
    fi
    rm -f "$log"
}

first_time() { # NAME FILE: said where the file is not there yet
    [ -f "$2" ] || echo "$script: proving and building $1 first, once: some minutes" >&2
}

# `rt run` proves and builds what has changed, and then runs the program: with no input it ends at once.
program() { # NAME
    need_rt
    first_time "$1" "$root/crates/$1/out/$1"
    in_crate "$1" run
}

# What a build is made of: the toolchain and each file that it reads.
sources() {
    (
        cd "$root" && rt version && cat crates.txt &&
            find crates -name out -prune -o -type f \( -name '*.rt' -o -name '*.antt' \) -print0 | LC_ALL=C sort -z | xargs -0 sha256sum
    ) | sha256sum
}

# `rt lib` writes the archive anew at each call, so it is called only where the sources are not the ones that the archive was made of.
library() {
    local made stamp
    need_rt
    archive=$root/crates/sirveshan/out/libsirveshan.a
    stamp=$archive.sources
    made=$(sources)
    [ ! -f "$archive" ] || [ ! -f "$stamp" ] || [ "$(< "$stamp")" != "$made" ] || return 0
    first_time sirveshan "$archive"
    rm -f "$stamp"
    in_crate sirveshan lib
    echo "$made" > "$stamp"
}

is_x86() { [ "$(uname -m)" = x86_64 ]; }

find_x86() {
    x86_static=()
    is_x86 && return
    need qemu-x86_64 "programs for x86-64 run under it on this processor (Debian: qemu-user)"
    x86_static=(qemu-x86_64)
}

find_x86_cc() {
    find_x86
    if is_x86; then
        read -ra x86_cc <<< "${CC:-gcc}"
        need "${x86_cc[0]}" "a C compiler for x86-64 is needed"
    else
        x86_cc=(x86_64-linux-gnu-gcc -static)
        need "${x86_cc[0]}" "a C compiler for x86-64 is needed (Debian: gcc-x86-64-linux-gnu)"
    fi
}

x86_folder=
is_x86 || x86_folder=x86_64-unknown-linux-gnu/

x86_cargo() { # WORDS
    if is_x86; then
        need cargo "Rust is needed"
        cargo "$@"
        return
    fi
    find_x86_cc
    need /usr/bin/cargo "Rust for x86-64 is needed (Debian: rustc-web, cargo-web, libstd-rust-web-dev:amd64)"
    RUSTC=/usr/bin/rustc RUSTDOC=/usr/bin/rustdoc CARGO_BUILD_TARGET=x86_64-unknown-linux-gnu \
        CARGO_TARGET_X86_64_UNKNOWN_LINUX_GNU_LINKER=${x86_cc[0]} \
        CARGO_TARGET_X86_64_UNKNOWN_LINUX_GNU_RUNNER=${x86_static[*]} /usr/bin/cargo "$@"
}
