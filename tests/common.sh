# What the scripts share that try the store from outside; to be sourced by bash, by a script that has set `part`, the name that its lines
# begin with. A function need_.. gets what a check needs, from Debian's packages where it is missing and this is root; where it cannot be
# had the function answers 1 and says in `why_not` what is missing.

repository="$(cd "$(dirname "${BASH_SOURCE[0]}")/.." && pwd)"
why_not=""
failed=0

fail() { # fail WHY
    echo "$part: failed: $1" >&2
    exit 1
}

differs() { # differs CASE HOW: one of several cases, of which the others are still tried
    echo "$part of $1: $2"
    failed=1
}

make_folder() { # the folder `made` for what a script makes, gone with it
    made=$(mktemp -d) || exit 2
    trap 'rm -rf "$made"' EXIT
}

# Says what is not checked here, also at the end of the file that HEKATOSUY_LEFT_OUT names, from which ./test tells it. With
# HEKATOSUY_STRICT=1 that is a failure.
left_out() { # left_out WHAT WHY
    echo "$part: left out $1: $2"
    [ -z "${HEKATOSUY_LEFT_OUT:-}" ] || echo "$1: $2" >>"$HEKATOSUY_LEFT_OUT"
    [ "${HEKATOSUY_STRICT:-}" != 1 ] || fail "something is left out, and HEKATOSUY_STRICT is 1"
}

install_packages() { # install_packages PACKAGE..
    [ "$(id -u)" = 0 ] && command -v apt-get >/dev/null || return 1
    echo "$part: installing $*"
    export DEBIAN_FRONTEND=noninteractive
    # another program may be installing: then it is waited for
    local install="apt-get -o DPkg::Lock::Timeout=300 install -y --no-install-recommends"
    $install "$@" >/dev/null 2>&1 || { apt-get update && $install "$@"; } >/dev/null 2>&1
}

add_rust_for_amd64() {
    [ "$(id -u)" = 0 ] && dpkg --add-architecture amd64 2>/dev/null && install_packages cargo-web rustc-web libstd-rust-web-dev:amd64 libc6-dev:amd64
}

need() { # need COMMAND PACKAGE..: a command, from these packages if it is not here
    command -v "$1" >/dev/null || { install_packages "${@:2}" && command -v "$1" >/dev/null; } || { why_not="no $1"; return 1; }
}

# A C compiler for x86-64, for which the archive is, `compile`, and in `emulate` what its programs are run with: on another machine
# Debian's cross compiler, `flags` for programs that need no library there, and qemu.
need_cc() {
    compile=${CC:-cc} emulate="" flags=""
    if [ "$(uname -m)" = x86_64 ]; then
        need "$compile" gcc libc6-dev
    else
        compile=x86_64-linux-gnu-gcc emulate=qemu-x86_64 flags=-static
        need $compile gcc-x86-64-linux-gnu libc6-dev-amd64-cross && need $emulate qemu-user
    fi
}

# cargo and rustc, for programs of this machine.
need_cargo() {
    need cargo cargo-web && need rustc rustc-web
}

builds_for() { # builds_for TARGET: whether rustc can build a program for it, with the linker `compile`
    local folder status
    folder=$(mktemp -d) || exit 2
    echo 'fn main() {}' >"$folder/main.rs"
    rustc --target "$1" -C linker="$compile" -C target-feature=+crt-static -o "$folder/main" "$folder/main.rs" >/dev/null 2>&1
    status=$?
    rm -rf "$folder"
    return $status
}

# cargo and rustc, for x86-64. On another machine they build for it, and run programs under qemu; where rustc cannot, Debian's in /usr/bin
# goes before it.
need_cargo_for_x86_64() {
    need_cargo || return 1
    [ "$(uname -m)" != x86_64 ] || return 0
    need_cc || return 1
    local target=x86_64-unknown-linux-gnu
    builds_for $target || {
        PATH="/usr/bin:$PATH"
        builds_for $target || { add_rust_for_amd64 && builds_for $target; }
    } || { why_not="no Rust for $target"; return 1; }
    export CARGO_BUILD_TARGET=$target
    export CARGO_TARGET_X86_64_UNKNOWN_LINUX_GNU_LINKER=$compile
    export CARGO_TARGET_X86_64_UNKNOWN_LINUX_GNU_RUNNER=$emulate
    export CARGO_TARGET_X86_64_UNKNOWN_LINUX_GNU_RUSTFLAGS="-C target-feature=+crt-static"
}

# libhekatosuy.a: in the folder that HEKATOSUY_LIB_DIR names, or in target/staticlib, where it is written anew if a crate has changed since.
# `archive` is its path. A failure of ./archive is one, and not something that is missing.
need_archive() {
    local folder="$repository/target/staticlib" said
    if [ -n "${HEKATOSUY_LIB_DIR:-}" ]; then
        folder="$(cd "$HEKATOSUY_LIB_DIR" 2>/dev/null && pwd)" || { why_not="HEKATOSUY_LIB_DIR names no folder"; return 1; }
        HEKATOSUY_LIB_DIR=$folder
    elif command -v rt >/dev/null && ! is_current "$folder/libhekatosuy.a"; then
        said="$("$repository/archive" 2>&1)" || { printf '%s\n' "$said" | grep -v '^statements ' | tail -n 20; fail "./archive"; }
    fi
    archive="$folder/libhekatosuy.a"
    [ -f "$archive" ] || { why_not="no libhekatosuy.a in ${HEKATOSUY_LIB_DIR:-target/staticlib}"; return 1; }
}

# A program of crates/, `program`: as rt ci or rt run has left it, or built anew if a crate has changed since.
need_program() { # need_program NAME
    local folder="$repository/crates/$1" said
    program="$folder/out/$1"
    is_current "$program" && return
    said="$(cd "$folder" && rt run <stdin 2>&1)" || { printf '%s\n' "$said" | grep -v '^statements ' | tail -n 20; fail "rt run in crates/$1"; }
}

is_current() { # is_current FILE: no crate has changed since it was made
    [ -f "$1" ] && [ -z "$(find "$repository"/crates.txt "$repository"/crates/*/{src,specs,proofs} -newer "$1" -print -quit 2>/dev/null)" ]
}

# The published Rust, which the judge's crates are built from.
need_sources() {
    local sources="${OXIDSQL_SRC:-$repository/../shared/docs/src}"
    [ -f "$sources/src/access/slotted_page_segment.rs" ] || { why_not="no Rust sources in $sources (OXIDSQL_SRC)"; return 1; }
    [ -z "${OXIDSQL_SRC:-}" ] || OXIDSQL_SRC="$(cd "$sources" && pwd)"
}
