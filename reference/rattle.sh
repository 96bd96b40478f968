# rattle.sh: how the scripts of the repository build and run its programs. Sets root, emulator and loader.
# shellcheck shell=bash disable=SC2034
root=$(cd "$(dirname "${BASH_SOURCE[0]}")/.." && pwd -P)

# Programs are for x86-64: there they run as they are, and elsewhere under qemu-x86_64, if the path has it.
emulator=
[ "$(uname -m)" = x86_64 ] || emulator=qemu-x86_64
loader=()

# Sees to it that rt is on the path. Under an emulator a program needs the kit's loader and C library, since the machine has none for x86-64.
find_kit() {
    local lib
    command -v rt >/dev/null || { echo "rt is not here: no program of the repository can be built" >&2; exit 2; }
    lib=$(dirname "$(rt doc)")/toolchain/lib
    [ -z "$emulator" ] || loader=("$emulator" "$lib/ld-linux-x86-64.so.2" --library-path "$lib")
}

# A program is a crate with a main.rt.
is_program() { # NAME
    [ -f "$root/crates/${1:-?}/src/main.rt" ]
}

list_programs() {
    local main
    for main in "$root"/crates/*/src/main.rt; do
        [ ! -f "$main" ] || basename "$(dirname "$(dirname "$main")")"
    done | paste -s -d ' '
}

# Where rt leaves a program: rt run, and rt ci of what LLVM built.
program_of() { # NAME
    printf '%s\n' "$root/crates/$1/out/$1"
}

# The file is there, and since it was made nothing that a proof reads has changed, in any crate.
is_newest() { # FILE
    [ -f "$1" ] && [ -z "$(find "$root/crates.txt" "$root"/crates/*/{src,specs,proofs} -newer "$1" -print -quit 2>/dev/null)" ]
}

is_built() { # NAME
    is_newest "$(program_of "$1")"
}

# Proves, compiles and links the named programs. Says on standard error how far it is, and all that rt said where it fails.
# rt builds a program to run it: so each is run once here, on no input and in its own folder.
build_programs() { # NAME..
    local name program log=$root/target/rattle-build.log crates
    find_kit
    mkdir -p "$root/target"
    for name in "$@"; do
        ! is_built "$name" || continue
        program=$(program_of "$name")
        mapfile -t crates < <(crates_below "$name")
        # a program's own status says nothing here: it is built if it is there again
        rm -f "$program"
        (cd "$root/crates/$name" && rt run </dev/null 2>&1 >/dev/null) | tee "$log" | say_progress "${crates[@]}"
        [ -x "$program" ] || { cat "$log" >&2; exit 2; }
    done
}

# The named crates and all that they stand on, in rt's order: a crate behind those that it stands on.
crates_below() { # NAME..
    awk -v names="$*" '
        function visit(name, list, count, k) {
            if (!(name in below) || name in done) return
            done[name] = 1
            count = split(below[name], list, " ")
            for (k = 1; k <= count; k++) visit(list[k])
            print name
        }
        { sub(/#.*/, "") }
        /:/ { colon = index($0, ":"); split(substr($0, 1, colon - 1), words, " "); below[words[1]] = substr($0, colon + 1) }
        END { count = split(names, wanted, " "); for (k = 1; k <= count; k++) visit(wanted[k]) }' "$root/crates.txt"
}

# Reads what rt says and says which of the crates is being proved; those that are built already are passed over. A terminal keeps one line.
say_progress() { # CRATE..
    local all=$# line name k begin='' end='\n'
    [ ! -t 2 ] || { begin='\r\033[K' end=''; }
    # shellcheck disable=SC2059 # begin and end are formats
    {
        while IFS= read -r line; do
            [[ $line == "rt: chose --jobs "*" for "* ]] || continue
            name=${line##* for }
            for ((k = 1; k <= all; k++)); do
                [ "${!k}" != "$name" ] || printf "${begin}proving %d of $all: %s$end" "$k" "$name"
            done
        done
        printf "$begin"
    } >&2
}

# Runs a program as rt itself does, but in the folder that this is called in.
run_program() { # NAME ARGUMENTS..
    local program
    program=$(program_of "$1")
    shift
    "${loader[@]}" "$program" "$@"
}

# The C compiler for x86-64 is the machine's own there, and elsewhere a cross compiler. Sets compiler; without one it is empty.
find_x86_compiler() {
    if [ "$(uname -m)" = x86_64 ]; then
        compiler=$(command -v "${CC:-cc}" || command -v gcc || command -v clang)
    else
        compiler=$(command -v x86_64-linux-gnu-gcc)
    fi
    compiler=${compiler:-}
}

# Proves and compiles the library for C, where that is not done yet, and links a C program with it.
build_stock() { # PROGRAM SOURCES..
    local program=$1 archive=$root/target/staticlib/libstock.a log=$root/target/staticlib.log
    shift
    if ! is_newest "$archive"; then
        mkdir -p "$root/target/staticlib"
        (cd "$root/crates/stock_c" && rt lib) >"$log" 2>&1 || { cat "$log" >&2; exit 2; }
        cp "$root/crates/stock_c/out/libstock_c.a" "$archive" || exit 2
    fi
    "$compiler" -std=c11 -O2 -Wall -Wextra -Werror -pedantic -static -I"$root/include" "$@" "$archive" -o "$program" || exit 2
}
