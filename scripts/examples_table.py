"""Makes the table of examples/README.md by running the built images, or compares it with what the runs tell.

    examples_table.py make RUNNER      prints the table; RUNNER is a program with the command line of `cape`
    examples_table.py compare RUNNER   ends with 1 where a line of the table of examples/README.md is another one, or the
                                       image that stands in the cases of crates/cape_cases
"""

import pathlib
import re
import struct
import subprocess
import sys

TOP = pathlib.Path(__file__).resolve().parent.parent
EXAMPLES = TOP / "examples"
CASES = TOP / "crates" / "cape_cases" / "stdin"
# The example that is a case.
STORED = "saxpy"
VLENS = [128, 1024]
HEAD = "| Example | VLEN | status | retired | searches | updates | passes |\n|---|---|---|---|---|---|---|\n"
# What the error output of a run ends with.
REPORT = re.compile(
    r"cape: exited (\d+) after (\d+)\ninstructions \2\nsearches (\d+)\nupdates (\d+)\npasses (\d+)\n"
)
# What an example writes: those in C that their kernel agrees with a plain loop, and the others their own text.
SAME = b"same\n"


def report_of(runner, image, vlen):
    """The line of the table."""
    words = [runner, "run", str(image), "--vlen", str(vlen), "--counts"]
    run = subprocess.run(words, capture_output=True, timeout=600)
    errors = run.stderr.decode(errors="replace")
    report = REPORT.fullmatch(errors)
    if report is None:
        sys.exit(f"{image.name} at VLEN {vlen}: {errors.strip()}")
    if (EXAMPLES / f"{image.name}.c").exists() and run.stdout != SAME:
        sys.exit(f"{image.name} at VLEN {vlen} wrote {run.stdout!r}")
    numbers = " | ".join(f"{int(number):,}" for number in report.groups())
    return f"| `{image.name}` | {vlen} | {numbers} |\n"


def lines_of(runner):
    """The lines of all images, in the order of the table."""
    images = sorted((EXAMPLES / "images").iterdir())
    return {(image.name, vlen): report_of(runner, image, vlen) for image in images for vlen in VLENS}


def stored_words():
    """The words of the image that is a case."""
    lines = CASES.read_text().splitlines()
    first = next(at for at, line in enumerate(lines) if line.startswith("# examples/images/"))
    words = []
    for line in lines[first:]:
        if line.startswith("call "):
            return words
        if line.startswith("image "):
            for part in line.split()[1:]:
                word, _, times = part.partition("*")
                words += [int(word, 16)] * int(times or 1)


def is_stored():
    data = (EXAMPLES / "images" / STORED).read_bytes()
    return stored_words() == list(struct.unpack(f"<{len(data) // 4}I", data))


def compare(lines):
    """Compares the lines of the images."""
    table = (EXAMPLES / "README.md").read_text()
    other = [name for name, line in lines.items() if line not in table]
    for name, vlen in other:
        print(f"{name} at VLEN {vlen} has another line in the table")
    if not is_stored():
        print(f"the case of {STORED} has another image")
    print(f"{len(lines) - len(other)} lines of the table the same, {len(other)} different")
    return 1 if other or not is_stored() else 0


def main(words):
    if len(words) != 2 or words[0] not in ("make", "compare"):
        print(__doc__)
        return 2
    lines = lines_of(words[1])
    if words[0] == "compare":
        return compare(lines)
    print(HEAD + "".join(lines.values()), end="")
    return 0


if __name__ == "__main__":
    sys.exit(main(sys.argv[1:]))
