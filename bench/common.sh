# What the benches share. A bench that has read this has the top of the repository in `top`, and in `work` a scratch
# folder that is gone when it ends.
# shellcheck shell=sh
set -eu
top=$(cd "$(dirname "$0")/.." && pwd)
work=$(mktemp -d)
trap 'rm -rf "$work"' EXIT

# Puts the program that `rt ci` has proved into `program`.
find_program() {
    program=$top/crates/roqsulei/out/roqsulei
    [ -x "$program" ] || { echo "no proved program: run rt ci first" >&2; exit 2; }
}

# Puts the system's Python into `python` where that has jsonrpclib-pelix, and else the one on the path.
find_python() {
    python=/usr/bin/python3
    "$python" -c 'import jsonrpclib' 2> /dev/null || python=python3
}

# Puts the program that a source of bench/ becomes over libjson-rpc-cpp into `compiled`, and nothing where that or a
# compiler is not installed.
compile_cpp() {
    compiled=$work/$1
    c++ -std=c++11 -O2 -w -o "$compiled" "$top/bench/$1.cpp" "$2" -ljsonrpccpp-common -ljsoncpp 2> /dev/null ||
        compiled=
}

# Makes a repository in the scratch folder: copies of the crates that the further words name, and over them a crate with
# the line of crates.txt that is the first word, and with the input as its main.
make_crate() {
    entry=$1
    name=${entry%%:*}
    shift
    mkdir -p "$work/crates/$name/src"
    cat > "$work/crates/$name/src/main.rt"
    for crate in "$@"; do
        cp -r "$top/crates/$crate" "$work/crates/"
        grep "^$crate:" "$top/crates.txt"
    done > "$work/crates.txt"
    rm -rf "$work"/crates/*/out
    echo "$entry" >> "$work/crates.txt"
}

# Proves and builds that crate by a run with these words.
build_crate() {
    cd "$work/crates/$name"
    rt run -- "$@" > "$work/log" 2>&1 || { cat "$work/log" >&2; exit 1; }
}

# Proves and builds that crate alone, over the libraries of the repository that PROVED names, where `rt ci` passed, or
# else of this one.
build_over_proved() {
    kit=$(dirname "$(rt doc)")
    proved=$(cd "${PROVED:-$top}" && pwd)
    cd "$work/crates/$name"
    mkdir out
    set -- --extern "std=$kit/rlibs/std.rlib" -L "dependency=$kit/rlibs"
    for library in ${entry#*:}; do
        folder=$kit/rlibs
        [ -d "$folder/$library.rlib" ] || folder=$proved/crates/$library/out/rlib
        [ -d "$folder/$library.rlib" ] || { echo "$library is not proved: run rt ci first" >&2; exit 2; }
        set -- "$@" --extern "$library=$folder/$library.rlib"
    done
    for folder in "$proved"/crates/*/out/rlib; do
        set -- "$@" -L "dependency=$folder"
    done
    "$kit/bin/rattle" build --crate-name "$name" src/main.rt "$@" --links "$name=" --jobs 1 \
        --antt-project "$kit/rattle/logic/antt-project.json" --logic-built "$kit/logic_built" \
        --toolchain "$kit/toolchain" -o "out/$name.o" > "$work/log" 2>&1 || { cat "$work/log" >&2; exit 1; }
    "$kit/bin/rattle-link" --target x86_64-unknown-linux-gnu --toolchain "$kit/toolchain" -o "out/$name" \
        "out/$name.o" "$kit/c/libos_c.a" "$kit/c/liblibc_c.a"
}

# Runs that crate as it was built.
run_crate() {
    "$work/crates/$name/out/$name" "$@"
}

# The least line of so many runs of a command.
least() {
    count=$1
    shift
    for _ in $(seq "$count"); do
        "$@"
    done | sort -n | head -1
}
