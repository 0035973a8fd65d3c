# What the commands of this repository share. Sourced, not run: `. "$(dirname "$0")/common.sh"`, in bin/ and bench/ `../tools/common.sh`.
# root is the repository, self the command's name.

root=$(cd "$(dirname "$0")/.." && pwd) || exit 2
self=$(basename "$0")

# ---- what is said ----

say() { printf '%s: %s\n' "$self" "$*"; }
tell() { say "$@" >&2; }
fail() { tell "$@"; exit 1; }
stop() { tell "$@"; exit 2; }
# nothing can be run; bin/test says these lines again at its end
not_run() { tell "not run: $*"; exit 3; }

present() { command -v "$1" > /dev/null 2>&1; }
need() { present "$1" || not_run "$1 is absent"; }

# ---- folders and libraries ----

# sets folder, which is removed at the end
temporary_folder() {
    folder=$(mktemp -d) || exit 2
    trap 'rm -rf "$folder"' EXIT
}

# sets folder: FOLDER, or a temporary one
work_folder() {
    [ -n "${FOLDER:-}" ] || { temporary_folder; return; }
    mkdir -p "$FOLDER"
    folder=$(cd "$FOLDER" && pwd)
}

absolute() { printf '%s/%s\n' "$(cd "$(dirname "$1")" && pwd)" "$(basename "$1")"; }

# sets library: the file NAMED, or that which `tools/build library CRATE` writes
find_library() { # CRATE VARIABLE NAMED
    library=${3:-$root/target/staticlib/lib$1.a}
    [ -f "$library" ] || not_run "$library is absent (\`tools/build library $1\` makes it, $2 names another)"
    library=$(absolute "$library")
}

# sets rules: librules.a beside that library
find_rules() {
    rules=$(dirname "$library")/librules.a
    [ -f "$rules" ] || not_run "$rules is absent (\`tools/build library rules\` makes it)"
}

# ---- programs of tools/ ----

# builds tools/NAME.rs in the folder
build_rust() { # NAME [FLAG ..]
    built=$1
    shift
    rustc --edition 2024 -O "$@" -o "$folder/$built" "$root/tools/$built.rs"
}

# COUNT sheets of the generator, and the kind of each
generate_sheets() { # COUNT SHEETS KINDS
    build_rust generate
    "$folder/generate" "${SEED:-1}" 0 "$1" "$2" "$3"
}

strict_c() { "${CC:-cc}" -std=c89 -pedantic -Wall -Wextra -Werror "$@"; }

# has the C compiler read a header, where there is one
read_header() { # FILE
    ! present "${CC:-cc}" || strict_c -fsyntax-only -x c "$root/include/$1"
}

# ---- proved programs ----

# whether FILE is absent, or older than a source of the crate NAME or than what follows
stale() { # FILE NAME [FILE|FOLDER ..]
    [ -e "$1" ] || return 0
    built=$1
    crate=$2
    shift 2
    for used in "$crate" $(sed -n "s/^$crate: //p" "$root/crates.txt"); do
        [ ! -d "$root/crates/$used" ] || set -- "$@" "$root/crates/$used"
    done
    [ -n "$(find "$@" -type f -newer "$built" | head -n 1)" ]
}

build() { # FILE COMMAND ..
    built=$1
    shift
    case $1 in tools/build) needed=rt ;; *) needed=$1 ;; esac
    present "$needed" || stop "$needed is absent, and the program is not built"
    tell "building: $*"
    (cd "$root" && "$@") < /dev/null >&2 || stop "the program cannot be built"
    touch "$built"
}

# what a refusal of a sheet means; docs/READING.md has it at length
meaning() {
    case $1 in
    1) echo "the sheet has more than 65,536 bytes" ;;
    2) echo "the sheet is cut off, or a number in it is out of form" ;;
    3) echo "a byte of the sheet has no meaning where it stands" ;;
    4) echo "a count, a length or the depth is over its limit" ;;
    5) echo "a text is not UTF-8" ;;
    6) echo "a position is outside the source or inside a character" ;;
    7) echo "the comments are not those of the source, or not in order" ;;
    8) echo "bytes follow the end of the sheet" ;;
    9) echo "a call asks for a template that has no text" ;;
    10) echo "the report is longer than 65,536 bytes" ;;
    13) echo "the place of a string does not begin and end with the same quotation mark" ;;
    *) echo "see docs/01-scope.md" ;;
    esac
}
