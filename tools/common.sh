# What the scripts of this folder share. It is read by them, and not run. In a release they are next to the program.
here=$(cd "$(dirname "${BASH_SOURCE[0]}")" && pwd)
if [ -x "$here/pawnd" ]; then top=$here; else top=$(dirname "$here"); fi

# Says why a command does not go on, and ends it.
fail() {
    echo "$(basename "$0"): $1" >&2
    exit "${2:-1}"
}

# The program to run: the one that PAWND names, the one beside this file, or else that of build/, which is built first
# if anything changed.
program() {
    if [ -n "${PAWND:-}" ]; then
        [ -x "$PAWND" ] || fail "PAWND names $PAWND, which is no program"
        realpath "$PAWND"
    elif [ "$top" = "$here" ]; then
        echo "$here/pawnd"
    else
        "$top/tools/build" >&2 || exit 1
        echo "$top/build/pawnd"
    fi
}
