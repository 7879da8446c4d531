#!/usr/bin/env bash
# Compares sessions of the debugger with the executable model, byte for byte: the answers, the guest's output and the status.
# The sessions are random: commands of all kinds with numbers in their ranges and outside them, lines of no form, long ones,
# bytes that are no text, and a last line without its end; over the examples, the programs of the corpus where it is there,
# and random programs of vector instructions, of loads and stores that fault, and of calls. Then sessions at the limits: of
# bytes, of a line, of breaks and of pages. Each is told by its seed. Skips where the model is missing.
#   scripts/compare_sessions.sh [CAPE] [FIRST] [LAST]
#     CAPE         the built program, crates/cape/out/cape by default
#     FIRST, LAST  the seeds, 1 to 600 by default
# The session of one seed is written, and its image and options are shown, by:
#   python3 -B scripts/compare_sessions.py session CORPUS SEED FOLDER
source "$(dirname "$0")/common.sh"
cape=${1:-$top/crates/cape/out/cape}
first=${2:-1}
last=${3:-600}
need_beside "$model"
need_built "$cape" cape
status=0
python3 -B "$top/scripts/compare_sessions.py" compare "$cape" "$model" "$work" "$shared/corpus" "$first" "$last" || status=1
python3 -B "$top/scripts/compare_sessions.py" limits "$cape" "$model" "$work" || status=1
exit "$status"
