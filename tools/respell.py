#!/usr/bin/env python3
"""Brings the repository's own definitions and lemmas to today's spelling.

    tools/respell.py

Run once, at the top of a checkout, right after the kit's port.py. A word is in snake case
(`steps-out` becomes `steps_out`), a type or a fact in upper camel case (`Keeps-out` becomes
`KeepsOut`). Names of the library, names that Rattle makes (of goals, steps and their fields),
functions of src/, strings and comments keep their spelling. Words between back quotes in README.md
and docs/ follow. It writes nothing where two names would fall together.
"""
import pathlib
import re
import sys

ROOT = pathlib.Path(__file__).resolve().parent.parent
WORD = r"[^\s(){}\[\].,;:\"]+"
TOKEN = re.compile(rf"\"(?:[^\"\\]|\\.)*\"|{WORD}|.", re.S)
KEYWORDS = ("abbrev", "unfoldable", "opaque", "pub", "record", "data")
DECLARATION = re.compile(rf" *(?:{WORD} +)*{WORD} +:(?: |$)")
RECORD_OR_DATA = re.compile(rf"(?:pub )?(?:record|data) +({WORD})")
RECORD = re.compile(r"(?:pub )?record ")
GOAL = re.compile(r":\s*goal\.")
OF_LIBRARY = re.compile(r"use Rattle\.std\.[^\n]*?\{([^}]*)\}")


def split_comment(line, mark):
    """The code of a line and its comment; a mark inside a string is no comment."""
    quoted = False
    for i, ch in enumerate(line):
        if ch == '"':
            quoted = not quoted
        elif not quoted and line.startswith(mark, i) and (i == 0 or line[i - 1] in " \t("):
            return line[:i], line[i:]
    return line, ""


def declared_on(code):
    """The names that a line declares; an answer to a goal has a name that Rattle made."""
    if GOAL.search(code) or code.lstrip().startswith(("use ", "let ", "module ", "|")):
        return []
    if head := RECORD_OR_DATA.match(code):
        return [head[1]]
    left = code.split(" :", 1)[0]
    if DECLARATION.match(code) and "=" not in left:
        return [w for w in left.split() if w not in KEYWORDS]
    return []


def declared_names(files):
    """The declared names, and among them the fields of records."""
    names, fields = set(), set()
    for path in files:
        in_record = False
        for line in path.read_text().splitlines():
            code, _ = split_comment(line, "--")
            if not code.strip():
                continue
            indented = code.startswith(" ")
            if not indented:
                in_record = bool(RECORD.match(code))
            found = declared_on(code)
            names.update(found)
            if in_record and indented:
                fields.update(found)
    return names, fields


def respelled(name):
    if "◌" in name or name[0] in "-_" or name[-1] in "-_":
        return name
    parts = re.split(r"[-_]", name.replace("′", "'"))
    if name[0].isupper() and name[0].isascii():
        return "".join(p[:1].upper() + p[1:] for p in parts)
    return "_".join(parts)


def turn_code(code, table, fields):
    """A name behind a dot is turned only where it is a record's field: else Rattle made it."""
    out, before = [], ""
    for token in TOKEN.findall(code):
        out.append(table.get(token, token) if before != "." or token in fields else token)
        before = token
    return "".join(out)


def turn_source(path, table, fields):
    text = path.read_text()
    kept = {entry.split(" as ")[-1].strip() for it in OF_LIBRARY.findall(text) for entry in it.split(",")}
    own = {old: new for old, new in table.items() if old not in kept}
    mark = "--" if path.suffix == ".antt" else "//"
    parts = (split_comment(line, mark) for line in text.split("\n"))
    return text, "\n".join(turn_code(code, own, fields) + comment for code, comment in parts)


def turn_page(path, table):
    text = path.read_text()
    return text, re.sub(r"`([^`\n]+)`", lambda it: "`" + turn_code(it[1], table, set(table)) + "`", text)


def main():
    proofs = sorted(ROOT.glob("crates/*/specs/**/*.antt")) + sorted(ROOT.glob("crates/*/proofs/**/*.antt"))
    names, fields = declared_names(proofs)
    table = {name: respelled(name) for name in names if respelled(name) != name}
    if len(set(table.values()) - names) != len(table):
        sys.exit("respell: two names would fall together")
    pages = [ROOT / "README.md", *sorted((ROOT / "docs").glob("*.md"))]
    turned = [(it, *turn_source(it, table, fields)) for it in [*proofs, *sorted(ROOT.glob("crates/*/src/**/*.rt"))]]
    turned += [(it, *turn_page(it, table)) for it in pages if it.name != "PORT.md"]
    changed = [(path, new) for path, old, new in turned if new != old]
    for path, new in changed:
        path.write_text(new)
    print(f"respell: {len(table)} names, {len(changed)} files")


main()
