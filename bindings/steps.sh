# shellcheck shell=sh
# The steps of every script that makes something in Rust; each sources this file behind ../compare/steps.sh. Cargo is used where
# it is there, else rustc alone: the variable CARGO names another cargo, and where it is set and empty none is used.
# shellcheck disable=SC2154 # root, made and work are set there
crate=$root/bindings/rust
cargo=${CARGO-cargo}
command -v "$cargo" >/dev/null || cargo=''

# Makes the library that the Rust is linked with.
prepare() {
    need_rustc
    make_library "$made/proved"
    export SKEINLOFT_LIB_DIR="$made/proved"
    export CARGO_TARGET_DIR="$root/target/cargo"
}

# The version of a package.
version_of() { # PACKAGE-FOLDER
    sed -n 's/^version = "\(.*\)"/\1/p' "$1/Cargo.toml"
}

# ---- with cargo

run_cargo() { # WORD PACKAGE-FOLDER [WORDS..]
    word=$1 folder=$2
    shift 2
    "$cargo" "$word" --quiet --offline --manifest-path "$folder/Cargo.toml" "$@"
}

# ---- with rustc alone, into $work

rust() { # SOURCE OUT [WORDS..]
    source=$1 out=$2 package=$(dirname -- "$(dirname -- "$1")")
    shift 2
    CARGO_MANIFEST_DIR=$package CARGO_PKG_VERSION=$(version_of "$package") \
        "$RUSTC" --edition 2024 -C opt-level=3 --check-cfg 'cfg(oracle, test)' -L "native=$SKEINLOFT_LIB_DIR" -o "$out" "$source" "$@"
}

# Compiles the crate skeinloft.
build_crate() {
    rust "$crate/src/lib.rs" "$work/libskeinloft.rlib" --crate-type rlib --crate-name skeinloft -l static=capi
}

# Compiles a program, or with --test its tests, against the crate.
rust_program() { # SOURCE OUT [WORDS..]
    rust "$@" --extern "skeinloft=$work/libskeinloft.rlib"
}

# ---- skein

# Makes skein, where something of it has changed, and sets $skein to it.
make_skein() {
    if [ -n "$cargo" ]; then
        run_cargo build "$root/skein" --release || fail "skein is not compiled"
        skein=$CARGO_TARGET_DIR/release/skein
        return
    fi
    skein=$work/skein
    if [ ! -f "$skein" ] || [ -n "$(find "$crate" "$root/skein" "$SKEINLOFT_LIB_DIR/libcapi.a" -newer "$skein")" ]; then
        { build_crate && rust_program "$root/skein/src/main.rs" "$skein"; } || fail "skein is not compiled"
    fi
}
