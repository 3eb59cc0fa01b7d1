# To be sourced. Archives of `rt lib` are for x86-64: on another machine a cross compiler builds the programs that
# link them and an emulator runs them. They are Debian's, and installed where they are missing.
. "${BASH_SOURCE[0]%/*}/archive.sh"
if [ "$(uname -m)" = x86_64 ]; then
    x86_64_tools=
    x86_64_link=()
    x86_64_run=()
else
    x86_64_tools=x86_64-linux-gnu-
    x86_64_link=(-static)
    x86_64_run=(qemu-x86_64)
    if ! command -v "${x86_64_tools}g++" >/dev/null || ! command -v "${x86_64_run[0]}" >/dev/null; then
        packages='g++-x86-64-linux-gnu libc6-dev-amd64-cross qemu-user'
        if ! apt-get update -qq || ! apt-get install -y -qq $packages >/dev/null; then
            echo "$0: Debian's packages $packages are needed on this machine, and could not be installed" >&2
            exit 1
        fi
    fi
fi

# A compiler that is missing is told of at once, and not after minutes of proving.
if ! command -v "${x86_64_tools}gcc" >/dev/null; then
    echo "$0: ${x86_64_tools}gcc is not on the path; it compiles the programs in C. On Debian: apt-get install gcc libc6-dev" >&2
    exit 1
fi

# Compiles strictly: options, sources, archives, -o program.
cc_x86_64() {
    "${x86_64_tools}gcc" ${x86_64_link[@]+"${x86_64_link[@]}"} -std=c11 -D_POSIX_C_SOURCE=200809L -Wall -Wextra -Werror "$@"
}

# The modules whose headers these modules include: paths without endings.
included() {
    local module
    for module; do
        sed -n "s|^#include \"\(.*\)\.h\"\$|${module%/*}/\1|p" "$module".[ch]
    done | xargs -r realpath -m --relative-to=.
}

# What a program of host/ is built of, as its includes say: the sources of the modules, and their archives in the folder given.
parts_of() {
    local modules before= module
    modules=$(find host -name "$1.c" | sed 's/\.c$//')
    while [ "$modules" != "$before" ]; do
        before=$modules
        modules=$(printf '%s\n' $before $(included $before) | LC_ALL=C sort -u)
    done
    for module in $modules; do
        if [ -f "$module.c" ]; then
            echo "$module.c"
        elif grep -q "^${module#include/}:" crates.txt; then
            echo "$2/lib${module#include/}.a"
        fi
    done
}

# Builds a program of host/, its archives too, where it is missing or older than a file of these: its name, where it goes to,
# options.
build_host() {
    local program=$1 output=$2 parts part
    shift 2
    mapfile -t parts < <(parts_of "$program" target/staticlib)
    for part in "${parts[@]}"; do
        [[ $part != *.a ]] || { part=${part##*/lib} && archive "${part%.a}"; }
    done
    if [ ! -x "$output" ] || [ -n "$(find host include "${parts[@]}" -newer "$output" -print -quit)" ]; then
        cc_x86_64 -O2 "$@" "${parts[@]}" -o "$output"
    fi
}

# Runs a program with its arguments.
run_x86_64() { ${x86_64_run[@]+"${x86_64_run[@]}"} "$@"; }

# The same with a stack of so many KiB. The emulator gives a program a stack of its own.
run_x86_64_stack() {
    local kib=$1
    shift
    if [ ${#x86_64_run[@]} -eq 0 ]; then
        (ulimit -s "$kib" && exec "$@")
    else
        "${x86_64_run[@]}" -s $((kib * 1024)) "$@"
    fi
}
