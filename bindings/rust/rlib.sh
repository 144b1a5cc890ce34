# shellcheck shell=bash disable=SC2154 # archive and rustc are set by tools/host.sh
# Sourced by the scripts that compile programs over the Rust binding, after need_rust and need_archive of tools/host.sh.
# build_rlib DIR: compiles the crate with the archive in it, without Cargo; $rlib is the result.
build_rlib() {
    mkdir -p "$1"
    cp "$archive" "$1/libhostiledisk.a"
    rlib=$1/libhostiledisk.rlib
    "${rustc[@]}" -D warnings -O --crate-type rlib --crate-name hostiledisk -L native="$1" -o "$rlib" bindings/rust/src/lib.rs
}
