# For scripts that run our programs, or build one over the library; sourced, with $home the repository.

# Where rt puts a program that it has proved and built.
program_of() { # NAME
    echo "$home/crates/$1/out/$1"
}

# Proves and builds a program if it is not there, and says so on standard error. rt runs what it builds, here on no input.
need_program() { # NAME
    if ! command -v rt >/dev/null 2>&1; then
        echo "$1: the Rattle toolchain's command rt is not on the PATH" >&2
        return 1
    fi
    [ -x "$(program_of "$1")" ] && return 0
    echo "$1: proving and building the program, once; this takes some minutes, and each crate is named when it is done" >&2
    if ! build_program "$1" >&2; then
        echo "$1: the program could not be proved and built" >&2
        return 1
    fi
}

# Proves and builds a program as its sources stand now, over what earlier runs kept.
build_program() { # NAME
    (cd "$home/crates/$1" && rt run </dev/null >/dev/null) && [ -x "$(program_of "$1")" ]
}

# Proves the crate exports and builds its archive, over what earlier runs kept.
build_archive() {
    (cd "$home/crates/exports" && rt lib)
}

# Installs a Debian package where a command of it is missing, and says so.
need_command() { # COMMAND PACKAGE
    command -v "$1" >/dev/null 2>&1 && return 0
    echo "$1 is missing; installing Debian's package $2" >&2
    local as=''
    [ "$(id -u)" -eq 0 ] || as=sudo
    $as apt-get install -y "$2" >/dev/null 2>&1 || { $as apt-get update >/dev/null 2>&1 && $as apt-get install -y "$2" >/dev/null 2>&1; }
    command -v "$1" >/dev/null 2>&1 || { echo "$2 could not be installed" >&2; return 1; }
}

# Sets `gcc64` and `gxx64`, the compilers for x86-64: the machine's own, or Debian's cross compilers.
find_compilers() {
    if [ "$(uname -m)" = x86_64 ]; then
        gcc64=gcc gxx64=g++
        need_command gcc gcc && need_command g++ g++
    else
        gcc64=x86_64-linux-gnu-gcc gxx64=x86_64-linux-gnu-g++
        need_command "$gcc64" gcc-x86-64-linux-gnu && need_command "$gxx64" g++-x86-64-linux-gnu
    fi
}
