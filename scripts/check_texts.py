#!/usr/bin/env python3
"""Checks the texts of the repository before its proofs, and ends with 1 where one of these fails:

- a source or definition file has at most 500 lines;
- a clause of a contract has at most 160 characters, spaces run together;
- crates.txt, docs/ARCHITECTURE.md and docs/PROOFS.md list the same crates, in one order, each with its folder;
- no text cites what is not in the repository: papers, requests or definitions by a number;
- the sessions that docs/DEBUGGING.md shows are cases of crates/cape_cases, with these answers and the images of these files.

    python3 -B scripts/check_texts.py
"""
import pathlib
import re
import sys

TOP = pathlib.Path(__file__).resolve().parent.parent
MOST_LINES = 500
MOST_CHARACTERS = 160
CITED = re.compile(
    r"\b(T[1-5]\.[0-9]|D([1-9]|1[0-9]|2[0-5])\b|R([1-9]|1[0-9]|20)\b|W([1-79]|1[0-5])\b"
    r"|document 0[1-4]|0[1-4] (section|part)|ERRATA|papers?\b)|\.\./shared"
)
# The document whose sessions are cases, and the files whose bytes the images of cases are.
SESSIONS = "docs/DEBUGGING.md"
CASE_IMAGES = {"a session of the debugger watches a sum of bytes": "examples/images/cipher"}
CLAUSE = re.compile(r"^[ \t]*(requires|ensures)\*?(?:[ \t]+(\w+))?[ \t]*\{", re.MULTILINE)


def files(*endings):
    """The files of the repository with one of these endings, without what tools make."""
    for path in sorted(TOP.rglob("*")):
        inside = path.relative_to(TOP).parts
        if path.is_file() and path.suffix in endings and not {"out", ".git"} & {*inside}:
            yield path


def name(path):
    return str(path.relative_to(TOP))


def long_files():
    for path in files(".rt", ".antt"):
        lines = len(path.read_text().splitlines())
        if lines > MOST_LINES:
            yield f"{name(path)}: {lines} lines, at most {MOST_LINES}"


def clause_at(text, start):
    """The clause whose opening brace stands just before `start`, without its braces."""
    depth, end = 1, start
    while depth and end < len(text):
        depth += {"{": 1, "}": -1}.get(text[end], 0)
        end += 1
    return " ".join(text[start : end - 1].split())


def long_clauses():
    for path in files(".rt"):
        text = path.read_text()
        for found in CLAUSE.finditer(text):
            clause = clause_at(text, found.end())
            if len(clause) > MOST_CHARACTERS:
                line = text.count("\n", 0, found.start()) + 1
                label = found[2] or found[1]
                yield f"{name(path)}:{line}: {label} has {len(clause)} characters, at most {MOST_CHARACTERS}"


def listed():
    """The lists of crates: where each stands, and its names in their order."""
    lines = (TOP / "crates.txt").read_text().splitlines()
    yield "crates.txt", [line.partition(":")[0].strip() for line in lines if ":" in line and not line.startswith("#")]
    folders = {path.name for path in (TOP / "crates").iterdir() if (path / "src").is_dir()}
    for document in ("docs/ARCHITECTURE.md", "docs/PROOFS.md"):
        rows = re.findall(r"(?m)^\| ((?:`\w+`(?:, )?)+) \|", (TOP / document).read_text())
        names = [it for row in rows for it in re.findall(r"`(\w+)`", row)]
        yield document, [it for it in names if it in folders]


def unlike_lists():
    folders = sorted(path.name for path in (TOP / "crates").iterdir() if (path / "src").is_dir())
    lists = list(listed())
    for where, names in lists:
        for missing in sorted({*folders} - {*names}):
            yield f"{where}: the crate {missing} is missing"
        for strange in sorted({*names} - {*folders}):
            yield f"{where}: there is no crate {strange}"
        for twice in sorted({it for it in names if names.count(it) > 1}):
            yield f"{where}: the crate {twice} is listed twice"
    order = lists[0][1]
    for where, names in lists[1:]:
        if sorted(names) == sorted(order) and names != order:
            at = next(i for i, pair in enumerate(zip(names, order)) if pair[0] != pair[1])
            yield f"{where}: {names[at]} stands where crates.txt has {order[at]}"


def cited():
    for path in files(".rt", ".antt", ".md", ".edit", ".txt"):
        if name(path).split("/")[0] in ("scripts", "bench"):
            continue
        for number, line in enumerate(path.read_text().splitlines(), 1):
            if CITED.search(line):
                yield f"{name(path)}:{number}: cites {CITED.search(line)[0]}"


def cases_in(path):
    """The lines of each case, or of each report, by the name of the case."""
    blocks = path.read_text().split("\n\n")
    lines = [[line for line in block.splitlines() if not line.startswith("#")] for block in blocks]
    return {block[0].partition(" ")[2]: block[1:] for block in lines if block and block[0].startswith("case ")}


def after(head, lines):
    return [line[len(head):] for line in lines if line.startswith(head)]


def shown_sessions():
    """The name of each session of the document, what is typed in it, and what is answered."""
    text = (TOP / SESSIONS).read_text()
    for part in text.split("<!-- session: ")[1:]:
        name, _, rest = part.partition(" -->")
        lines = after("    ", rest.split("\n## ")[0].splitlines())
        yield name, after("> ", lines), [line for line in lines if not line.startswith("> ")]


def image_of(lines):
    """The bytes of the `image` lines of a case."""
    parts = [part.partition("*") for line in after("image ", lines) for part in line.split()]
    return b"".join(int(word, 16).to_bytes(4, "little") * int(times or "1") for word, _, times in parts)


def unlike_sessions():
    asked, told = (cases_in(TOP / "crates/cape_cases" / name) for name in ("stdin", "stdout"))
    for name, typed, answers in shown_sessions():
        if typed != after("type ", asked.get(name, [])):
            yield f"{SESSIONS}: what is typed is not that of the case '{name}'"
        if answers != [line.removesuffix("\\n") for line in after("out ", told.get(name, []))]:
            yield f"{SESSIONS}: the answers are not those of the case '{name}'"
    for name, path in CASE_IMAGES.items():
        if image_of(asked.get(name, [])) != (TOP / path).read_bytes():
            yield f"crates/cape_cases/stdin: the image of the case '{name}' is not {path}"


def main():
    faults = [*long_files(), *long_clauses(), *unlike_lists(), *cited(), *unlike_sessions()]
    for fault in faults:
        print(fault)
    return 1 if faults else 0


if __name__ == "__main__":
    sys.exit(main())
