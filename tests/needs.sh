# shellcheck shell=bash
# What tests/run, oracle/run and bench/run need of a machine: found, or asked for in one line. They read this file, with the repository's folder in $top.

# Ends the run with one line.
stop() {
    echo "$0: $1" >&2
    exit 2
}

# Whether COMMAND is there, and what it says of its version (`cargo 1.95.0 ..`) is VERSION or later.
is_at_least() {
    printf '%s\n' "$2" "$("$1" --version 2>/dev/null | cut -d ' ' -f 2)" | sort -V -C
}

# rust/Cargo.toml asks for this version.
has_cargo() {
    is_at_least cargo 1.84 && is_at_least "${RUSTC:-rustc}" 1.84
}

need_cargo() {
    has_cargo || stop "needs cargo and rustc, 1.84 or later, on the path"
}

need_rt() {
    command -v rt >/dev/null || stop "needs rt, the Rattle toolchain, on the path"
}

# The unchanged Rust's files, where COAP_LITE_SRC names them or beside the repository.
need_rust_files() {
    local file
    COAP_LITE_SRC=${COAP_LITE_SRC:-$(dirname "$top")/shared/docs/src}
    for file in error option_value block_handler/mod block_handler/block_value; do
        [ -f "$COAP_LITE_SRC/src/$file.rs" ] ||
            stop "needs the files of coap-lite 0.13.3: set COAP_LITE_SRC to the folder that has its src/ (there is no $COAP_LITE_SRC/src/$file.rs)"
    done
    COAP_LITE_SRC=$(realpath "$COAP_LITE_SRC")
    export COAP_LITE_SRC
}

# The archives of these names, in the folder that BLOCK_HANDLER_LIB names.
need_archives() {
    local name
    for name; do
        [ -f "$BLOCK_HANDLER_LIB/lib$name.a" ] || stop "needs lib$name.a in the folder that BLOCK_HANDLER_LIB names ($BLOCK_HANDLER_LIB)"
    done
    BLOCK_HANDLER_LIB=$(realpath "$BLOCK_HANDLER_LIB")
}

# Puts the words that run a program for x86-64 in $runner: the kit's loader with its libraries and, on another processor, its emulator.
find_runner() {
    local home tools
    home=${RATTLE_HOME:-$(dirname "$(dirname "$(readlink -f "$(command -v rt)")")")}
    [ ! -d "$home/on/$(uname -m)" ] || home=$home/on/$(uname -m)
    tools=$home/toolchain
    runner=("$tools/lib/ld-linux-x86-64.so.2" --library-path "$tools/lib")
    [ ! -x "$tools/bin/qemu-x86_64" ] || runner=("$tools/bin/qemu-x86_64" "${runner[@]}")
}
