#!/usr/bin/env python3
"""Brings the names of this repository's definitions, fields and lemmas to today's spelling, once, after the kit's port.py.

    python3 tools/respell.py          at the top of the repository

A name that a file of specs/, or a lemma file of proofs/, gives with dashes gets underscores: `text-cost` is `text_cost`. So does a variable's
name there, where the kit has no name of that spelling. A name that begins with a capital is a type or a fact, and its parts are joined:
`Given-to` is `GivenTo`. A function's or lemma's name with capitals in it gets underscores too: `countsOf` is `counts_of`, and `getD` in a
name is the library's `get_or`. They change in specs/, proofs/, the clauses of src/ and must-fail/; in comments only between backticks, and nowhere
in strings. Functions of src/, exported names and what programs print stay.
A name whose new spelling stands for something else is named in KEPT with what it becomes.
"""
import os
import re
import subprocess
import sys

# Names whose plain new spelling would fall together with another: what they become instead.
KEPT = {
    "layoutsAfter": "read_layouts_after",
    "nodeRight": "node_is_right",
    "nodeRows": "read_node_rows",
    "parentOf": "parent_from",
    "textRows": "read_text_rows",
}

EDGE = r"\s(){}\[\],;.`\"«»"
GIVEN = re.compile(r"^\s*(?:(?:abbrev|unfoldable|pub|axiom|infix\w*) )*([^" + EDGE + r":]*-[^" + EDGE + r":]*)\s*(?:\(.*\)|\{.*\}|\s)*:\s")
HUMPED = re.compile(r"^\s*(?:(?:abbrev|unfoldable|pub) )*([a-z][a-z0-9_]*[A-Z][\w']*)\s*(?:\(.*\)|\{.*\}|\s)*:\s")
TOKEN = re.compile(r"[^" + EDGE + r"]+")
TYPE = re.compile(r"^\s*(?:pub )?(?:record|data|ruleset) (?:pub )?([^" + EDGE + r":]*-[^" + EDGE + r":]*)")


def files(top, *endings):
    for folder, dirs, names in os.walk(os.path.join(top, "crates")):
        dirs[:] = sorted(d for d in dirs if d != "out")
        for name in sorted(names):
            if name.endswith(endings):
                yield os.path.join(folder, name)


def given(top):
    """The names with dashes, or capitals inside, that files of specs/ and lemma files of proofs/ give."""
    names = set()
    for path in files(top, ".antt"):
        parts = path.split(os.sep)
        if parts[-1] in ("Proof.antt", "Answers.antt", "Invariants.antt"):
            continue
        for line in open(path, encoding="utf-8"):
            if line.startswith("use ") or line.lstrip().startswith("--"):
                continue
            for form in (GIVEN, TYPE, HUMPED):
                found = form.match(line)
                if found:
                    names.add(found.group(1))
    return names


def kits():
    """The names with dashes in the kit's own files, which stay."""
    page = subprocess.run(["rt", "doc"], capture_output=True, text=True, check=True).stdout.split()[0]
    names = set()
    for folder, dirs, found in os.walk(os.path.dirname(page)):
        for name in found:
            if name.endswith(".antt"):
                with open(os.path.join(folder, name), encoding="utf-8", errors="replace") as f:
                    names.update(t for t in TOKEN.findall(f.read()) if "-" in t)
    return names


def spoken(top):
    """The words with dashes in the code of specs/ and lemma files."""
    names = set()
    for path in files(top, ".antt"):
        if path.split(os.sep)[-1] in ("Proof.antt", "Answers.antt", "Invariants.antt"):
            continue
        for line in open(path, encoding="utf-8"):
            code = re.split(r"(?:^|\s)--", line)[0]
            names.update(t for t in TOKEN.findall(code) if re.fullmatch(r"[^\W\d][\w'?₀-₉]*(?:-[\w'?₀-₉]+)+", t))
    return names


def spelled(name):
    if name in KEPT:
        return KEPT[name]
    if name[0].isupper():
        head, *rest = name.split("-")
        return head + "".join(r[:1].upper() + r[1:] for r in rest)
    name = name.replace("-", "_").replace("getD", "get_or")
    return re.sub(r"(?<=[a-z0-9])[A-Z]", lambda m: "_" + m.group(0).lower(), name)


def turned(text, whole, mark):
    """The text with each name turned, line by line; behind the comment's mark only between backticks."""
    out = []
    for line in text.split("\n"):
        cut = line.find(mark) if mark else -1
        while cut > 0 and line[cut - 1] not in " \t":
            cut = line.find(mark, cut + 1)
        code, note = (line, "") if cut < 0 else (line[:cut], line[cut:])
        pieces = re.split(r'("(?:[^"\\]|\\.)*")', code)
        code = "".join(p if i % 2 else whole.sub(lambda m: spelled(m.group(0)), p) for i, p in enumerate(pieces))
        pieces = re.split(r"(`[^`]*`)", note)
        note = "".join(whole.sub(lambda m: spelled(m.group(0)), p) if i % 2 else p for i, p in enumerate(pieces))
        out.append(code + note)
    return "\n".join(out)


def main():
    top = os.getcwd()
    if not os.path.isdir(os.path.join(top, "crates")):
        sys.exit("respell: run it at the top of the repository")
    names = given(top)
    names |= spoken(top) - kits()
    fell = {}
    for name in sorted(names):
        fell.setdefault(spelled(name), []).append(name)
    texts = [set(TOKEN.findall(open(path, encoding="utf-8").read())) for path in files(top, ".antt", ".rt") if not path.endswith("Proof.antt")]
    for new, old in fell.items():
        if len(old) > 1 and any(sum(name in text for name in old) > 1 for text in texts):
            sys.exit(f"respell: {' and '.join(old)} would both be {new}, and one file has both")
        if len(old) > 1:
            print(f"respell: {' and '.join(old)}, of different modules, are both {new}; no file has both")
    parts = sorted(names, key=lambda n: (-len(n), n))
    whole = re.compile(r"(?<![^" + EDGE + r"])(?:" + "|".join(map(re.escape, parts)) + r")(?![^" + EDGE + r"])")
    count = 0
    for path in files(top, ".antt", ".rt", ".edit"):
        with open(path, encoding="utf-8") as f:
            text = f.read()
        new = turned(text, whole, "--" if path.endswith(".antt") else "//" if path.endswith(".rt") else "")
        if new != text:
            count += 1
            with open(path, "w", encoding="utf-8") as f:
                f.write(new)
    print(f"respell: {len(names)} names, {count} files")


if __name__ == "__main__":
    main()
