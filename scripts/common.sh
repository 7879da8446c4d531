# What the comparisons with the executable model share: where things lie, and a scratch folder that goes at the end. The
# model is a program of this project's authors that tells what `cape` should; users need neither it nor these scripts.
# A script reads it first, as in: source "$(dirname "$0")/common.sh"
set -u
top=$(cd "$(dirname "${BASH_SOURCE[0]}")/.." && pwd)
shared=$top/../shared
model=$shared/oracle/cape-ref

# Ends a script without a complaint where something that it compares with is missing.
need_beside() {
    local path
    for path; do
        if [ ! -e "$path" ]; then
            echo "skipped: nothing at $path"
            exit 0
        fi
    done
}

# Ends a script where a program is not built.
need_built() {
    if [ ! -x "$1" ]; then
        echo "no program at $1: build it by 'rt run' in crates/$2"
        exit 2
    fi
}

work=$(mktemp -d)
trap 'rm -rf "$work"' EXIT
