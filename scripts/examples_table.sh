#!/usr/bin/env bash
# Makes the table of examples/README.md by running the images of examples/images, or compares it with the runs.
#   scripts/examples_table.sh [make|compare] [RUNNER]
#     compare by default; RUNNER: a program with the command line of `cape`, crates/cape/out/cape by default
source "$(dirname "$0")/common.sh"
task=${1:-compare}
runner=${2:-$top/crates/cape/out/cape}
need_built "$runner" cape
python3 -B "$top/scripts/examples_table.py" "$task" "$runner"
