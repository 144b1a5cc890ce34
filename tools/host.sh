# Sourced by the scripts that build programs over the library. The library is x86-64: on an x86-64 machine programs are
# compiled and run as they are, on an aarch64 machine they are cross-compiled, linked statically and run under qemu.
# After need_c: "${cc[@]}" compiles C, "${emulate[@]}" runs the result. After need_rust: "${rustc[@]}" compiles Rust.
# After need_archive: $archive is the static library. HD_ARCHIVE=FILE takes that one instead of building it.

there() { command -v "$1" >/dev/null; }

install() {
    echo "installing $*" >&2
    [ "$(id -u)" -eq 0 ] || { echo "not root; please install $*" >&2; exit 2; }
    export DEBIAN_FRONTEND=noninteractive
    { apt-get update -qq && apt-get install -y -qq --no-install-recommends "$@"; } >&2
}

need_c() {
    case $(uname -m) in
    x86_64)
        there cc || install gcc libc6-dev
        cc=(cc -no-pie) emulate=() ;;
    aarch64)
        there x86_64-linux-gnu-gcc && [ -f /usr/x86_64-linux-gnu/lib/libc.a ] || install gcc-x86-64-linux-gnu libc6-dev-amd64-cross
        there qemu-x86_64 || install qemu-user
        cc=(x86_64-linux-gnu-gcc -static) emulate=(qemu-x86_64) ;;
    *)
        echo "neither x86-64 nor aarch64" >&2; exit 2 ;;
    esac
}

# rustc 1.63 or later; no crate from a registry
need_rust() {
    need_c
    if [ "$(uname -m)" = x86_64 ]; then
        there rustc || install rustc
        rustc=(rustc --edition 2021 -C relocation-model=static)
        return
    fi
    if [ ! -x /usr/bin/rustc ] || [ ! -d /usr/lib/rustlib/x86_64-unknown-linux-gnu ]; then
        dpkg --add-architecture amd64
        install rustc libstd-rust-dev:amd64
    fi
    # the cross C library's libm.a names its parts by the places they have on an x86-64 machine
    mkdir -p build/cross
    sed 's,/usr/lib/x86_64-linux-gnu,/usr/x86_64-linux-gnu/lib,g' /usr/x86_64-linux-gnu/lib/libm.a >build/cross/libm.a
    rustc=(/usr/bin/rustc --edition 2021 --target x86_64-unknown-linux-gnu -C linker=x86_64-linux-gnu-gcc
        -C target-feature=+crt-static -C relocation-model=static -L native=build/cross)
}

need_archive() {
    archive=${HD_ARCHIVE:-target/staticlib/libhostiledisk.a}
    if [ -z "${HD_ARCHIVE:-}" ] && there rt; then
        tools/staticlib || { echo "the library is not proved" >&2; exit 2; }
    fi
    [ -f "$archive" ] || { echo "no $archive; tools/staticlib writes it" >&2; exit 2; }
}
