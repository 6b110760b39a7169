# Sourced by the two launchers: runs the proved program of a crate, with its words, standard input and exit status. Where
# the program is missing, or older than a file that it is made of, it is proved and built first, which takes some minutes.
top=$(CDPATH='' cd -- "$(dirname "${BASH_SOURCE[0]}")/.." && pwd) || exit 70

# Whether the program is there and no file that it is made of is newer.
is_current() {
    local newer
    [ -x "$1" ] || return 1
    newer=$(cd -- "$top" && find crates.txt crates -name out -prune -o -type f -newer "$1" \
        \( -path crates.txt -o -path "crates/*/src/*" -o -path "crates/*/specs/*" -o -path "crates/*/proofs/*" \) \
        -print -quit) || return 1
    [ -z "$newer" ]
}

# Proves and builds the program of a crate. The build ends by running it without words or input: the exit status and a
# line that it then writes tell a finished build from a failed one.
build() {
    local crate=$1 status=$2 line=$3 folder=$top/crates/$1
    echo "$(basename "$0"): proving and building the program; the log is crates/$crate/out/build.log" >&2
    mkdir -p "$folder/out" || return 1
    # What is changed from here on is newer than the program.
    touch "$folder/out/begun" || return 1
    (cd "$folder" && rt run </dev/null >out/build.log 2>&1)
    [ "$?" -eq "$status" ] && grep -qxF -- "$line" "$folder/out/build.log" && [ -x "$folder/out/$crate" ] \
        && touch -r "$folder/out/begun" "$folder/out/$crate"
}

# Runs the program of a crate on the words after its first three: the crate, and the exit status and a line of what it
# writes without words and input.
launch() {
    local crate=$1 status=$2 line=$3 program=$top/crates/$1/out/$1
    shift 3
    if ! is_current "$program" && ! build "$crate" "$status" "$line"; then
        echo "$(basename "$0"): the program was not built" >&2
        exit 70
    fi
    exec "$program" "$@"
}
