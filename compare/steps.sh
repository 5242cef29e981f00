# shellcheck shell=sh
# The steps of every script that needs the proved library; each sources this file. A script makes what is its own in $work and
# calls itself $me: by the name of its folder, or by its own where it stands at the top or in .ci.
set -eu
here=$(CDPATH='' cd -- "$(dirname -- "$0")" && pwd -P)
if [ -f "$here/crates.txt" ]; then root=$here; else root=$(dirname -- "$here"); fi
case $here in
"$root" | "$root/.ci") me=$(basename -- "$0") ;;
*) me=$(basename -- "$here") ;;
esac
compare=$root/compare
work=$root/target/$me
# what all of them use: the folder proved with the library, and the folder oracle with the crate
made=$root/target/compare
mkdir -p "$work"

fail() {
    echo "$me: $*" >&2
    exit 2
}

# A test that goes on all the same counts in $wrong what fails.
wrong=0
fails() { # WHAT
    echo "$me: $*"
    wrong=$((wrong + 1))
}

# ---- programs

# Root on Debian gets a package that is missing.
try_install() { # PACKAGE
    if [ "$(id -u)" != 0 ] || ! command -v apt-get >/dev/null; then return; fi
    { apt-get update -qq; DEBIAN_FRONTEND=noninteractive apt-get install -y -qq --no-install-recommends "$1"; } >&2 || true
}

rustc_will_do() {
    "$RUSTC" --version 2>/dev/null | awk '{ split($2, v, "."); new = v[1] > 1 || v[2] >= 85 } END { exit !new }'
}

# Sets RUSTC to a rustc that knows edition 2024.
need_rustc() {
    RUSTC=${RUSTC:-rustc}
    export RUSTC
    if rustc_will_do; then return; fi
    try_install rustc-web
    RUSTC=/usr/bin/rustc
    rustc_will_do || fail "rustc 1.85 or later is missing (Debian has it in the package rustc-web)"
}

# ---- the proved library

# Copies what is proved to DIR. That has to lie outside the repository, in which the toolchain's gate takes such files in crates/ alone.
copy_crates() { # DIR
    mkdir -p "$1"
    cp "$root/crates.txt" "$1"
    for part in "$root"/crates/*/src "$root"/crates/*/specs "$root"/crates/*/proofs; do
        if [ -d "$part" ]; then
            to=$1/${part#"$root/"}
            mkdir -p "$(dirname -- "$to")"
            cp -R "$part" "$to"
        fi
    done
}

# Proves crate capi_c of the repository in REPOSITORY, and writes DIR/libcapi.a for a machine, this one if none is named;
# DIR/build.log has what was said. What the crates below are checked for already on this machine the toolchain knows by itself. It
# runs on x86-64, and writes libraries for Arm too; that for x86-64 asks for no more than what every such processor has.
build_library() { # REPOSITORY DIR [MACHINE]
    mkdir -p "$2"
    case ${3:-$(uname -m)} in
    x86_64) kind=--cpu=x86-64 ;;
    aarch64) kind=--target=aarch64-unknown-linux-gnu ;;
    *)
        echo "a library can be made for x86_64 and aarch64, not for ${3:-$(uname -m)}" >"$2/build.log"
        return 1
        ;;
    esac
    (cd "$1/crates/capi_c" && rt lib "$kind") >"$2/build.log" 2>&1 && cp "$1/crates/capi_c/out/libcapi_c.a" "$2/libcapi.a"
}

# What a library is made by and made of.
sources() {
    rt version
    (cd "$root" && find crates.txt crates/*/src crates/*/specs crates/*/proofs -type f -exec cksum {} + 2>/dev/null | LC_ALL=C sort)
}

# Proves and compiles the library, for this machine if none is named. What is there already, of the crates as they are, stays.
make_library() { # DIR [MACHINE]
    sources >"$work/sources"
    if [ -f "$1/libcapi.a" ] && cmp -s "$work/sources" "$1/made-of"; then return; fi
    echo "$me: proving and compiling the library for ${2:-$(uname -m)}, which can take minutes" >&2
    rm -rf "$1"
    if build_library "$root" "$1" "${2:-}"; then
        mv "$work/sources" "$1/made-of"
        return
    fi
    cat "$1/build.log"
    fail "there is no proved library"
}

# ---- what is linked with it

# Compiles the crate as a judge, where its sources are at hand, and sets $oracle to what came of it.
build_oracle() {
    oracle=''
    status=0
    said=$("$compare/oracle/build" "$made/oracle" 2>&1) || status=$?
    case $status in
    0) oracle=$made/oracle/libtpm2_protocol.rlib ;;
    3) said="the comparison with tpm2-protocol is skipped: $said" ;;
    *) fail "$said" ;;
    esac
    echo "$me: $said"
}

has_tss() {
    echo '#include <tss2/tss2_mu.h>' | cc -fsyntax-only -x c - 2>/dev/null
}

# Compiles what asks tpm2-tss, where that is at hand, and sets $tss to what came of it.
tss=''
build_tss() {
    has_tss || try_install libtss2-dev
    has_tss || return 0
    tss=$work/tss.o
    cc -O3 -Wall -Wextra -Werror -c -o "$tss" "$root/bench/src/tss.c" || fail "bench/src/tss.c is not compiled"
}

# Links a Rust program with the library in DIR, with the crate where there is one, and with tpm2-tss where that was asked for and is at
# hand.
build_program() { # DIR SOURCE OUT
    set -- "$2" -o "$3" -L "native=$1" -l static=capi
    [ -z "$oracle" ] || set -- "$@" --cfg oracle --extern "tpm2_protocol=$oracle"
    [ -z "$tss" ] || set -- "$@" --cfg tss -C "link-arg=$tss" -C link-arg=-ltss2-mu
    "$RUSTC" --edition 2024 -C opt-level=3 --check-cfg 'cfg(oracle)' --check-cfg 'cfg(tss)' "$@"
}

build_driver() { # DIR
    build_program "$1" "$compare/src/main.rs" "$1/driver"
}
