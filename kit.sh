# For the scripts that run a program of this repository, or link its archive into a program of another language; they source it from the root.
# Both are for x86-64, where the kit runs. What is linked is built by the machine's C compiler.

# Proves and builds: quick where nothing changed, silent unless it fails. `rt run` builds a program as crates/NAME/out/NAME and then runs it,
# here on no input; `rt lib` builds a static library as crates/NAME/out/libNAME.a.
made() {
    mkdir -p target/build
    (cd "crates/$2" && rt "$1") </dev/null >"target/build/$2" 2>&1 || { cat "target/build/$2" >&2; exit 2; }
}
build() { made run "$1"; }

# The archive of crate grain_c, by the name that C and Rust callers link.
archive() {
    made lib grain_c
    mkdir -p target/staticlib
    cmp -s crates/grain_c/out/libgrain_c.a target/staticlib/libgrain.a || cp crates/grain_c/out/libgrain_c.a target/staticlib/libgrain.a
}

# Runs a program that is built.
program() {
    "crates/$1/out/$1"
}

# Installs Debian's packages if a command is not there: wanted COMMAND PACKAGE ..
wanted() {
    command -v "$1" >/dev/null && return
    shift
    apt-get install --yes --no-install-recommends "$@" >/dev/null 2>&1 ||
        { apt-get update >/dev/null && apt-get install --yes --no-install-recommends "$@" >/dev/null; }
}

# Builds a program in C with the archive in it, target/linked/NAME: linked NAME SOURCE ..
linked() {
    archive
    mkdir -p target/linked
    name=$1
    shift
    cc -std=c11 -O2 -Wall -Wextra -Werror -Iinclude -o "target/linked/$name" "$@" target/staticlib/libgrain.a || exit 2
}
