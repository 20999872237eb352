#!/usr/bin/env python3
"""claims.py: each contract that docs/PROVED.md names is one of the crate under whose heading it stands, with the clauses that it names.

A claim is a bullet that ends in brackets: public calls, laws, types or definitions in backquotes, then `clause` or `clauses` with theirs;
several such, divided by semicolons, and each perhaps with `of CRATE` behind it. A call needs no clause if it has one that isn't named.
Where a clause states a record, `CLAUSE.FIELD` names a field of it.
"""
import functools
import pathlib
import re
import sys

ROOT = pathlib.Path(__file__).resolve().parent.parent
ITEM = re.compile(r"^( *)(?:pub(?:\(crate\))? )?(?:const )?(?:extern \S+ )?fn (\w+)", re.M)
CLAUSE = re.compile(r"ensures (\w+) \{\s*(\w*)")
RECORD = re.compile(r"^pub record (\w+)\b.* where\n((?: .*\n|\n)*)", re.M)
BROUGHT = re.compile(r"ghost use Rattle\.(fl_\w+)\.specs\.([\w.]+)\.\{([^}]*)\}")
OWNER = re.compile(r"^(?:impl|trait|pub trait)\b[^\n{]*", re.M)


@functools.cache
def records(path):
    """The fields of each record of a file of specs/, by its name."""
    text = path.read_text() + "\n" if path.is_file() else ""
    return {name: re.findall(r"^  pub (\w+) :", body, re.M) for name, body in RECORD.findall(text)}


def fields_of(name, text):
    """The fields of the record that a file of code brings in by this name: several crates have records of one name."""
    for crate, module, brought in BROUGHT.findall(text):
        if name in re.split(r"[, ]+", brought):
            return records(ROOT / "crates" / crate / "specs" / f"{module.replace('.', '/')}.antt").get(name, [])
    return []


def contracts(crate):
    """What a crate has: (type or None, call) with its clauses and the fields of those that state a record; and its types and definitions."""
    calls, names = {}, set()
    for path in sorted((ROOT / "crates" / crate / "src").glob("**/*.rt")):
        text = path.read_text()
        names |= set(re.findall(r"^\s*pub (?:struct|enum|trait) (\w+)", text, re.M))
        owners = [(m.start(), m[0]) for m in OWNER.finditer(text)]
        for m in ITEM.finditer(text):
            end = text.find(f"\n{m[1]}{{", m.start())
            clauses = set()
            for clause, states in CLAUSE.findall(text[m.start():end if end > 0 else len(text)]):
                clauses |= {clause} | {f"{clause}.{field}" for field in fields_of(states, text)}
            owner = [o for at, o in owners if at < m.start()][-1:] if m[1] else [""]
            for name in re.findall(r"\w+", owner[0]) if owner and m[1] else [None]:
                calls.setdefault((name, m[2]), set()).update(clauses)
    for path in sorted((ROOT / "crates" / crate / "specs").glob("**/*.antt")):
        names |= set(re.findall(r"^(?:pub |abbrev |record )+(\w+)", path.read_text(), re.M))
    return calls, names


def missing(crates, part):
    """What is wrong with one part of a claim."""
    other = re.search(r"\bof (fl_\w+)", part)
    known = [contracts(c) for c in ([other[1]] if other else crates)]
    before, _, after = part.partition("clause")
    clauses = re.findall(r"`(\w+(?:\.\w+)?)`", after)
    if "`" not in before:
        yield "a clause without its contract"
    for name in re.findall(r"`([\w:./]+)`", before):
        if "/" in name:
            continue
        owner, _, call = name.rpartition("::")
        found = [c[(owner or None, call)] for c, _ in known if (owner or None, call) in c]
        if not found and not (not owner and any(call in names for _, names in known)):
            yield f"there is no `{name}`"
        for clause in clauses:
            if found and not any(clause in f for f in found):
                yield f"`{name}` has no clause `{clause}`"


def main():
    page = (ROOT / "docs" / "PROVED.md").read_text()
    wrong, count = [], 0
    for section in re.split(r"^### ", page, flags=re.M)[1:]:
        heading, _, text = section.partition("\n")
        crates = heading.split(", ")
        lost = [c for c in crates if not (ROOT / "crates" / c).is_dir()]
        wrong += [f"{heading}: there is no crate {c}" for c in lost]
        for bullet in re.findall(r"^- (.*(?:\n  .*)*)", text.split("\n## ")[0], re.M):
            claim = " ".join(bullet.split())
            brackets = re.findall(r"\(([^()]*`[^()]*)\)", claim)
            count += 1
            if not brackets:
                wrong.append(f"{heading}: no contract is named: {claim}")
            for part in (brackets[-1].split(";") if brackets and not lost else []):
                wrong += [f"{heading}: {what}: {claim}" for what in missing(crates, part)]
    for text in wrong:
        print(f"docs/PROVED.md, {text}")
    if wrong:
        sys.exit(1)
    print(f"each of the {count} claims names a contract that is there")


if __name__ == "__main__":
    main()
