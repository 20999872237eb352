#!/usr/bin/env python3
"""documents.py PROGRAM: what the pages show is what the program answers.

Of README.md and of each page of docs/ the fenced blocks of five forms are run or compared, those of one page in their order, in one new folder,
in which `./flashts` is the program and `examples/` and `clients/` lie:

  ```console                the lines behind `$ ` are commands of a shell (one that ends in a word like <<END goes on up to END), and
                            below each is all that it writes, standard error too, with the explanations that a terminal shows. A
                            line `..` stands for any number of lines

  ```script sensor.img      a script on the left, run over this image, and on the right, behind three spaces or more, the reply to each
                            line; further lines of a reply have nothing on the left. A word `as FILE` behind the image's name says
                            that the left side is also that file of examples/, but for its comments and empty lines

  ```shell sensor.img       the same in a shell over this image, to whose lines also those of standard error belong, at its end

  ```config                 the lines of a configuration, which has to be accepted; other lines are a drawing that explains them

  ```rattle FILE            lines of this file of the repository, in its order, but for how far they are indented

Every other block is a drawing, bytes, or a text that the program neither reads nor writes: one that begins as a script or as a
command does (`device `, `table `, `$ `, `./flashts`, `flashts`) is refused, indented or fenced, so that none goes unseen.
"""
import difflib
import os
import pathlib
import re
import shutil
import subprocess
import sys
import tempfile

ROOT = pathlib.Path(__file__).resolve().parent.parent
FENCE = re.compile(r"^```(.*)$")
TWO_COLUMNS = re.compile(r"^(.*?\S)   +(\S.*)$")
NOTES = re.compile(r"^flashts: (a new image was made$|rows that no flush has written: )")
UNSEEN = re.compile(r"^(device \d|table \w+ [48] |\$ |\./flashts|flashts )")


class Block:
    def __init__(self, line, form, lines):
        self.line, self.form, self.lines = line, form, lines


def blocks(text):
    """The fenced and the indented blocks of a page, with the number of the line before each."""
    fence, found, indented = None, [], None
    for number, line in enumerate(text.splitlines(), 1):
        mark = FENCE.match(line)
        if fence is not None:
            if mark:
                found.append(fence)
                fence = None
            else:
                fence.lines.append(line)
        elif mark:
            fence = Block(number, mark[1].split(), [])
        elif line.startswith("    "):
            if indented is None:
                indented = Block(number - 1, [], [])
                found.append(indented)
            indented.lines.append(line[4:])
        elif line.strip():
            indented = None
    return found + ([] if fence is None else [Block(fence.line, ["open"], [])])


def shell(folder, command, stdin=None):
    done = subprocess.run(["sh", "-c", command], cwd=folder, input=stdin, stdin=None if stdin is not None else subprocess.DEVNULL,
                          env={**os.environ, "FLASHTS_EXPLAIN": "1"}, stdout=subprocess.PIPE, stderr=subprocess.STDOUT, text=True, timeout=60)
    return done.stdout.splitlines()


def run(folder, image, script):
    """The replies to a script, without the notes at its end, which pages show where they show the command."""
    return [line for line in shell(folder, f"./flashts run {image}", script) if not NOTES.match(line)]


def commands(lines):
    """The commands of a block of the form console, and what is shown below each."""
    found, end = [], None
    for line in lines:
        if end is not None:
            found[-1][0] += "\n" + line
            end = None if line == end else end
        elif line.startswith("$ "):
            found.append([line[2:], []])
            document = re.search(r"<<\s*'?(\w+)'?", line)
            end = document and document[1]
        elif found:
            found[-1][1].append(line)
        else:
            found.append(["true", [line]])
    return found


def matches(shown, answered):
    """Whether the lines are those that were answered, where `..` stands for any number of lines."""
    if not shown:
        return not answered
    if shown[0].strip() == "..":
        return any(matches(shown[1:], answered[at:]) for at in range(len(answered) + 1))
    return bool(answered) and shown[0].rstrip() == answered[0].rstrip() and matches(shown[1:], answered[1:])


def columns(lines):
    """The lines of the script in a block of the form script, each with its replies."""
    rows = []
    for line in lines:
        both = None if line.startswith("#") else TWO_COLUMNS.match(line)
        if line.startswith("   ") and rows:
            rows[-1][1].append(line.strip())
        elif line.strip():
            rows.append((both[1], [both[2]]) if both else (line, []))
    return rows


def run_script(folder, image, rows):
    """What the rows show and what is answered, up to the first line whose reply isn't the shown one. The image is left by all of them."""
    shown, script, image = [], "", pathlib.Path(folder) / image
    trial = image.with_name("trial.img")
    for line, replies in rows:
        shown += replies
        script += line + "\n"
        if shown and len(script.splitlines()) < len(rows):
            trial.unlink(missing_ok=True)
            if image.exists():
                shutil.copy(image, trial)
            answered = run(folder, "trial.img", script)
            if not matches(shown, answered):
                return shown, answered
    return shown, run(folder, image.name, script)


def is_file(script, name):
    lines = (ROOT / "examples" / name).read_text().splitlines()
    return [s for s in script if not s.startswith("#")] == [s for s in lines if s and not s.startswith("#")]


def difference(where, shown, answered):
    lines = list(difflib.unified_diff(shown, answered, "shown", "answered", n=1, lineterm=""))
    return "\n  ".join([where, *lines[:2], *(line for line in lines[2:] if not line.startswith("@@"))])


def run_block(folder, page, block):
    """What is wrong with a block, as texts."""
    where = f"{page}, line {block.line}"
    form = block.form[0] if block.form else ""
    if form == "console":
        for command, shown in commands(block.lines):
            answered = shell(folder, command)
            if not matches(shown, answered):
                yield difference(f"{where}: $ {command}", shown, answered)
    elif form == "script":
        rows = columns(block.lines)
        shown, answered = run_script(folder, block.form[1], rows)
        if not matches(shown, answered):
            yield difference(f"{where}: the script's replies", shown, answered)
        if "as" in block.form and not is_file([line for line, _ in rows], block.form[3]):
            yield f"{where}: the left side isn't examples/{block.form[3]}"
    elif form == "shell":
        rows = columns(block.lines)
        shown = [reply for _, replies in rows for reply in replies]
        asked = "".join(line + "\n" for line, _ in rows)
        answered = [line.strip() for line in shell(folder, f"./flashts shell {block.form[1]}", asked)]
        if not matches(shown, answered):
            yield difference(f"{where}: the shell's answers", shown, answered)
    elif form == "rattle":
        lines = iter([line.strip() for line in (ROOT / block.form[1]).read_text().splitlines()])
        lost = [line for line in block.lines if line.strip() and line.strip() not in lines]
        if lost:
            yield f"{where}: no line of {block.form[1]}, or not behind the one before it: {lost[0]}"
    elif form == "open":
        yield f"{where}: a fence that isn't closed"
    elif form == "config":
        script = "".join(line + "\n" for line in block.lines if line.startswith(("device ", "table ")))
        (pathlib.Path(folder) / "config.img").unlink(missing_ok=True)
        told = run(folder, "config.img", script)
        if told:
            yield difference(f"{where}: the configuration", [], told)
    elif any(UNSEEN.match(line) for line in block.lines):
        yield f"{where}: a script or a command that isn't run (forms `console`, `script`, `shell` and `config`)"


def main():
    if len(sys.argv) < 2:
        sys.exit("usage: documents.py PROGRAM [PAGE..]")
    program = pathlib.Path(sys.argv[1]).resolve()
    pages = [pathlib.Path(p).resolve() for p in sys.argv[2:]] or [ROOT / "README.md", *sorted((ROOT / "docs").glob("*.md"))]
    wrong, count = [], 0
    for page in pages:
        with tempfile.TemporaryDirectory() as folder:
            (pathlib.Path(folder) / "flashts").symlink_to(program)
            for beside in ("examples", "clients"):
                shutil.copytree(ROOT / beside, pathlib.Path(folder) / beside)
            for block in blocks(page.read_text()):
                count += block.form[:1] in (["console"], ["script"], ["shell"], ["config"], ["rattle"])
                wrong += run_block(folder, page.relative_to(ROOT), block)
    for text in wrong:
        print(text)
    if wrong:
        sys.exit(1)
    print(f"the documents show what the program answers: {count} blocks of {len(pages)} pages")


if __name__ == "__main__":
    main()
