#!/usr/bin/env python3
"""Counts for docs/DESIGN-PASS.md: run at the top of the repository; with --list each place is printed too. Reading sorts what a count finds."""
import collections
import glob
import re
import sys

LIST = "--list" in sys.argv


def sources():
    for path in sorted(glob.glob("crates/*/src/*.rt")):
        yield path, open(path, encoding="utf-8").read()


def places(pattern, flags=re.M, only=lambda path: True):
    found = []
    for path, text in sources():
        if not only(path):
            continue
        for m in re.finditer(pattern, text, flags):
            line = text.count("\n", 0, m.start()) + 1
            found.append((path, line, m.group(0).strip().split("\n")[0]))
    return found


def say(name, found):
    print(f"{name}: {len(found)}")
    if LIST:
        for path, line, text in found:
            print(f"    {path}:{line}: {text[:120]}")


def parameters(text):
    depth, parts, part = 0, [], ""
    for ch in text:
        depth += ch in "([<"
        depth -= ch in ")]>"
        if ch == "," and depth == 0:
            parts.append(part)
            part = ""
        else:
            part += ch
    return [p for p in parts + [part] if p.strip()]


def wide(least):
    found = []
    for path, text in sources():
        for m in re.finditer(r"\bfn (\w+)(?:<[^(]*>)?\(", text):
            depth, i = 1, m.end()
            while depth:
                depth += text[i] in "(["
                depth -= text[i] in ")]"
                i += 1
            count = len(parameters(text[m.end() : i - 1]))
            if count >= least:
                line = text.count("\n", 0, m.start()) + 1
                found.append((path, line, f"{m.group(1)}: {count} parameters"))
    return found


library = lambda path: "/test_" not in path
say("1a own enums", places(r"^(pub )?enum \w+"))
say("1b functions that answer a u32", places(r"\bfn \w+(?:(?!\bfn ).)*?-> u32\n", re.S, library))
say("1b fields and parameters for a refusal's number", places(r"\b(fault|number): u32\b", re.M, library))
say("1b numbers written where a refusal is meant", places(r"(return|=>|Refused\(|Lacks\() ?([1-9]|1[0-9]|2[0-9])\b[,;)]", re.M, library))
say("1c kinds compared as numbers", places(r"\b(kind|k)\b (==|<|<=|>=) [0-9]|match (kind|row\[2\])|row\[0\] == [0-9]|, 0\) != 9", re.M, library))
say("3 loops that are no for", places(r"^\s*(while |loop \{)"))
say("3 for loops", places(r"^\s*('\w+: )?for .* in "))
say("3 iterator chains", places(r"\.(all|any|map|sum|fold|position|find|min_by_key|copied)\("))
say("4 derives of equality or order", places(r"derive\([^)]*(PartialEq|PartialOrd)"))
say("4 From, TryFrom, Display", places(r"^impl[^\n]*\b(From|TryFrom|Display)\b"))
say("5 functions with eight parameters or more", wide(8))
say("6 registers as lent words", places(r"\bg: &(mut )?\[u64\]"))
say("fields copied into lets of their own", places(r"^\s*let \w+ = \w+\.\w+;$"))
answers = collections.Counter()
files = 0
for path in glob.glob("crates/*/proofs/**/Answers.antt", recursive=True):
    files += 1
    for m in re.finditer(r"^pub ([^ ]+) : goal\.", open(path, encoding="utf-8").read(), re.M):
        answers[m.group(1).split("-")[0]] += 1
print(f"8 answers: {sum(answers.values())} in {files} files; of them shape_of {answers['shape_of']}, bounds {answers['bounds']}")
