# What the benchmarks share: images of a few words, and the race of the built program with the executable model.
# A benchmark reads it first, as in: source "$(dirname "$0")/common.sh"
source "$(dirname "${BASH_SOURCE[0]}")/../scripts/common.sh"

# A number of 32 bits, lowest byte first.
word() {
    local n
    for n in "$@"; do
        printf "\\x$(printf %02x $((n & 255)))\\x$(printf %02x $((n >> 8 & 255)))\\x$(printf %02x $((n >> 16 & 255)))\\x$(printf %02x $((n >> 24 & 255)))"
    done
}

# An image of one segment from 0x10000 on, with the words behind its headers at 0x10054.
image() {
    local size=$((84 + 4 * $#))
    word 0x464c457f 0x00010101 0 0 0x00f30002 1 0x10054 52 0 0 0x00200034 1 0
    word 1 0 0x10000 0x10000 $size $size 5 4096
    word "$@"
}

# The milliseconds of processor time that a command takes by itself, the least of some runs. The error output of the last
# stays in the scratch folder.
least_time() {
    local runs=$1 least="" took i TIMEFORMAT=%3U
    shift
    for ((i = 0; i < runs; i++)); do
        took=$({ time "$@" >/dev/null 2>"$work/err" || true; } 2>&1)
        took=$((10#${took/./}))
        if [ -z "$least" ] || [ "$took" -lt "$least" ]; then least=$took; fi
    done
    echo "$least"
}

# Times the words of a command with the built program and with the model, and prints the ratio. The reports must agree.
#   race TITLE RUNS CAPE WORDS..
race() {
    local title=$1 runs=$2 cape=$3 ours theirs
    shift 3
    need_built "$cape" cape
    echo "race: $title"
    ours=$(least_time "$runs" "$cape" "$@")
    mv "$work/err" "$work/report"
    cat "$work/report"
    echo "cape: $ours ms"
    if [ ! -x "$model" ]; then
        echo "model: skipped, nothing at $model"
    else
        theirs=$(least_time "$runs" "$model" "$@")
        echo "model: $theirs ms"
        echo "ratio: $((ours * 100 / (theirs > 0 ? theirs : 1))) hundredths"
        cmp "$work/report" "$work/err"
    fi
}

# One table of the races that are read: a line for each, with the two times and their ratio.
table() {
    awk -F': ' '
    /^race: / { title = $2 }
    /^cape: / { ours = $2 }
    /^model: / { theirs = $2 }
    /^ratio: / { printf "%-44s %10s %10s %6.2f\n", title, ours, theirs, $2 / 100 }
    /differ/ { print }'
}
