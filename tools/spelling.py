#!/usr/bin/env python3
"""Brings the definitions and lemmas of this repository to today's spelling, after the toolchain's port.py.

    python3 tools/spelling.py [FOLDER]

FOLDER is the top of a checkout, this one's if not said. spelling.tsv beside this script has a row for each name: the old one, a
tab, the new one. A name turns as a whole word alone:

- in .antt files, comments included: a name with capitals everywhere, another one in code and between backticks;
- in .rt files: in `ghost use` items and clauses, and a name with capitals in comments too;
- in must-fail edits (crates/*/must-fail, tests/edits), as in the file that the edit is of.

A name that a file imports from a library of the toolchain stays there. A name that reads `old as new` in a list of imports becomes `new`. Names of the SPIR-V registry in specs/Numbers.antt, and
constructors that have the name of a case of one of the Rust's enums, keep the spelling of what they name, and are no rows.
A second run changes nothing but where a row's new name is another row's old one; so run it once.
"""
import os
import re
import sys

HERE = os.path.dirname(os.path.realpath(__file__))
WORD = re.compile(r"[^\s(){}.;,@\"«»`\[\]]+")
SPAN = re.compile(r"`[^`\n]*`")
COMMENT = re.compile(r"(?:(?<=\s)|^)--[^\n]*", re.M)
AGAIN = re.compile(r"([^\s{},]+) as ([^\s{},]+)")
IMPORT = re.compile(r"^(?:ghost )?use ([^\s{};]+)\.\{([^}]*)\}", re.M)


def table():
    with open(os.path.join(HERE, "spelling.tsv"), encoding="utf-8") as f:
        return dict(line.rstrip("\n").split("\t") for line in f if line.strip())


def of_libraries(text, crates):
    """The names that a file imports from elsewhere than this repository's crates."""
    names = set()
    for module, items in IMPORT.findall(text):
        parts = module.split(".")
        if parts[0] != "Rattle" or parts[1] not in crates:
            names.update(item.split(" as ")[0].strip() for item in items.split(","))
    return names


def turner(rows):
    def word(m):
        return rows.get(m[0], m[0])

    capitals = {a: b for a, b in rows.items() if re.search(r"[A-Z]", a)}

    def capital(m):
        return capitals.get(m[0].rstrip(":?!'’"), None) and m[0].replace(m[0].rstrip(":?!'’"), capitals[m[0].rstrip(":?!'’")]) or m[0]

    def code(text):
        text = WORD.sub(word, text)
        return AGAIN.sub(lambda m: m[1] if m[1] == m[2] else m[0], text)

    def prose(text):
        return WORD.sub(capital, SPAN.sub(lambda m: code(m[0]), text))

    def antt(text):
        out, at = [], 0
        for m in COMMENT.finditer(text):
            out += [code(text[at : m.start()]), prose(m[0])]
            at = m.end()
        return "".join(out) + code(text[at:])

    def rust(text):
        """Clauses and `ghost use` items are code; a comment is prose; of the rest only names with capitals could be meant, and none is."""
        out = []
        depth, ghost = 0, False
        for line in text.splitlines(keepends=True):
            bare = line.strip()
            if bare.startswith("//"):
                out.append(prose(line))
                continue
            if depth > 0 or ghost or re.match(r"(requires|ensures|ghost)\b", bare):
                out.append(code(line))
                if re.match(r"ghost\b", bare) and depth == 0:
                    ghost = not bare.endswith((";", "}", "},"))
                elif ghost:
                    ghost = not bare.endswith((";", "}", "},"))
                else:
                    depth += line.count("{") - line.count("}")
                    depth = max(depth, 0)
                continue
            out.append(line)
        return "".join(out)

    def edit(text, inside):
        return "".join(
            (code(line) if line.startswith(("old: ", "new: ")) and inside == ".antt" else rust_line(line, prose, code))
            for line in text.splitlines(keepends=True)
        )

    return antt, rust, edit


def rust_line(line, prose, code):
    if not line.startswith(("old: ", "new: ")):
        return prose(line) if line.startswith("#") else line
    head, text = line[:5], line[5:]
    if re.match(r"\s*(requires|ensures|ghost)\b", text):
        return head + code(text)
    return line


def files(top):
    for folder in ("crates", os.path.join("tests", "edits")):
        for where, below, names in os.walk(os.path.join(top, folder)):
            below[:] = sorted(b for b in below if b != "out")
            for name in sorted(names):
                if name.endswith((".antt", ".rt", ".edit")):
                    yield os.path.join(where, name)


def main(top):
    rows = table()
    crates = os.listdir(os.path.join(top, "crates"))
    turned = 0
    for path in files(top):
        with open(path, encoding="utf-8") as f:
            before = f.read()
        others = of_libraries(before, crates)
        antt, rust, edit = turner({a: b for a, b in rows.items() if a not in others})
        if path.endswith(".antt"):
            after = antt(before)
        elif path.endswith(".rt"):
            after = rust(before)
        else:
            of = re.search(r"^file: (\S+)", before, re.M)
            after = edit(before, os.path.splitext(of[1])[1] if of else "")
        if after != before:
            turned += 1
            with open(path, "w", encoding="utf-8") as f:
                f.write(after)
    print(f"{turned} files turned")


if __name__ == "__main__":
    main(sys.argv[1] if len(sys.argv) > 1 else os.path.dirname(HERE))
