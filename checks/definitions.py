#!/usr/bin/env python3
"""definitions.py [--write]: the files on whose definitions the contract of `run` rests.

It begins at the names in the clauses of `run` (crates/fl_session/src/whole_run.rt) and follows the `use` lines of the files of
definitions (crates/*/specs/*.antt), as long as they lead to crates of this repository. Types of the code that a definition names, and
the traits and constants of `run`'s contract, are listed by the file that declares them. The clause `causes`, of bytes that no run left, speaks
of a session's memory and so of that of every crate below: what it needs beside the other clauses is only counted. The list stands in
docs/PROMISES.md between the heading `## What you have to read to believe the promise` and the next one; where it isn't what is found, this
fails and prints the difference. With --write the list is written anew.
"""
import difflib
import pathlib
import re
import sys

ROOT = pathlib.Path(__file__).resolve().parent.parent
RUN = "fl_session/src/whole_run.rt"
PAGE = ROOT / "docs" / "PROMISES.md"
HEADING = "## What you have to read to believe the promise"
CAUSES = re.compile(r"\n    ensures causes \{.*?(?=\n    (?:ensures|//)|\Z)", re.S)
USE = re.compile(r"^\s*(?:ghost |pub )*use Rattle\.(fl_\w+)\.specs\.([\w.]+?)(?:\.\{(.*)\}|\s+as\s+\w+)?;?\s*$", re.M)


def text_of(name):
    return (ROOT / "crates" / name).read_text()


def uses(text):
    """The modules that a file uses: crate, path of the module, and the names that it takes from it (None for all)."""
    return [(m[1], m[2].split("."), m[3] and [n.split(" as ")[-1].strip() for n in m[3].split(",")]) for m in USE.finditer(text)]


def file_of(crate, path):
    """The file that a module stands in: a file of definitions, or the file of code that declares a type."""
    folder = "src" if path[0] == "declared" else "specs"
    parts = path[1:] if path[0] == "declared" else path
    for length in range(len(parts), 0, -1):
        name = f"{crate}/{folder}/{'/'.join(parts[:length])}{'.rt' if folder == 'src' else '.antt'}"
        if (ROOT / "crates" / name).exists():
            return name
    sys.exit(f"definitions: no file of {crate}.{'.'.join(path)}")


def contract_of_run():
    code = text_of(RUN)
    start = code.index("pub fn run<")
    return code, code[start:code.index("\n{", start)]


def occurs(name, text):
    if re.fullmatch(r"\w+", name):
        return re.search(rf"(?<!\w){re.escape(name)}(?!\w)", text)
    return all(part in text for part in name.split("◌") if part)


def traits(contract):
    """The files that declare the traits of the call's arguments."""
    names = re.findall(r"\w+: (\w+)", contract[:contract.index(">(")])
    for code in sorted((ROOT / "crates").glob("*/src/**/*.rt")):
        if any(re.search(rf"^pub trait {name}\b", code.read_text(), re.M) for name in names):
            yield str(code.relative_to(ROOT / "crates"))


def constants(contract):
    """The files that declare the constants that the clauses name."""
    names = set(re.findall(r"(?<![\w.])[A-Z][A-Z_]+(?!\w)", contract))
    for code in sorted((ROOT / "crates").glob("*/src/**/*.rt")):
        if any(re.search(rf"^pub const {name}\b", code.read_text(), re.M) for name in names):
            yield str(code.relative_to(ROOT / "crates"))


def found(contract):
    code, _ = contract_of_run()
    todo = [file_of(crate, path) for crate, path, names in uses(code) if names is None or any(occurs(n, contract) for n in names)]
    seen = set(traits(contract)) | set(constants(contract))
    while todo:
        name = todo.pop()
        if name not in seen:
            seen.add(name)
            if name.endswith(".antt"):
                todo += [file_of(crate, path) for crate, path, _ in uses(text_of(name))]
    return seen


def order():
    """The crates, lowest first."""
    return [line.split(":")[0] for line in (ROOT / "crates.txt").read_text().splitlines() if line.startswith("fl_")]


def rows(names, folder):
    """A row of a table for each crate: its files in this folder, and how many lines they have."""
    for crate in order():
        files = sorted(n for n in names if n.startswith(f"{crate}/{folder}/"))
        if files:
            lines = sum(text_of(n).count("\n") for n in files)
            shown = ", ".join(f"`{n.removeprefix(f'{crate}/{folder}/')}`" for n in files)
            yield f"| {crate} | {shown} | {lines} |"


def counted(names):
    """How many files of definitions these are, and in how many lines and crates."""
    specs = [n for n in names if n.endswith(".antt")]
    return specs, sum(text_of(n).count("\n") for n in specs), len({n.split("/")[0] for n in specs})


def section():
    _, contract = contract_of_run()
    names = found(CAUSES.sub("", contract))
    specs, lines, crates = counted(names)
    more, more_lines, more_crates = counted(found(contract) - names)
    return "\n".join([
        HEADING,
        "",
        f"The contract of `run` in `crates/{RUN}` but for its clause `causes`, and what its words mean: {len(specs)} files of definitions in {crates} crates, {lines:,} lines.",
        "The code, the other definitions and the proofs needn't be read for it: the prover has checked that the code keeps this contract",
        "([what is trusted](PROVED.md#what-is-trusted)). `checks/definitions.py` makes the list: it follows the `use` lines from the contract on,",
        "and the gate fails if it finds another one.",
        "",
        "| Crate | Definitions, in `specs/` | Lines |",
        "|---|---|---|",
        *rows(specs, "specs"),
        "",
        "These files of code declare the types that the definitions name, the traits of `run`'s arguments, with what a contract may say of them, and",
        "the constants of the contract. Lists, numbers and logic are those of the kit's library.",
        "",
        "| Crate | Types, traits and constants, in `src/` | Lines |",
        "|---|---|---|",
        *rows([n for n in names if n.endswith(".rt")], "src"),
        "",
        f"The clause `causes`, [whatever bytes the image has](#whatever-bytes-the-image-has), speaks of what the tables have in memory: it needs {len(more)} further files of definitions",
        f"in {more_crates} crates, {more_lines:,} lines, from `crates/fl_session/specs/CausedEach.antt` on. The promise above needs none of them.",
        "",
        "",
    ])


def main():
    page = PAGE.read_text()
    start = page.index(HEADING)
    end = page.find("\n## ", start + 1) + 1 or len(page)
    now, wanted = page[start:end], section()
    if end == len(page):
        wanted = wanted.rstrip("\n") + "\n"
    if sys.argv[1:] == ["--write"]:
        PAGE.write_text(page[:start] + wanted + page[end:])
    elif now != wanted:
        print("docs/PROMISES.md: what you have to read isn't what the contract of run rests on (checks/definitions.py --write makes it anew)")
        sys.stdout.writelines(difflib.unified_diff(now.splitlines(True), wanted.splitlines(True), "in the page", "found", n=0))
        sys.exit(1)
    else:
        print("the list of what you have to read is what the contract of run rests on")


if __name__ == "__main__":
    main()
