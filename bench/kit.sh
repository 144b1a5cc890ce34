# Sourced by bench/run and bench/native, after tools/host.sh: the toolchain's folder, and its compiler for C.

kit=$(there rt && dirname "$(dirname "$(readlink -f "$(command -v rt)")")")
kit_clang=$kit/toolchain/bin/clang

# "${c_cc[@]}" compiles C for this machine: the compiler that the library is compiled with, with the system's headers.
c_compiler() {
    c_cc=(${BENCH_CC:-})
    [ ${#c_cc[@]} -eq 0 ] || return 0
    c_cc=("$kit_clang" "--target=$(uname -m)-unknown-linux-gnu" -isystem "$(gcc -print-file-name=include)"
        -isystem "/usr/include/$(gcc -print-multiarch)" -isystem /usr/include)
}
