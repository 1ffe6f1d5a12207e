#!/usr/bin/env python3
"""Brings the repository's own definitions and lemmas to the spelling of today's Rattle: snake case, types in camel case.

    python3 tools/spell_names.py [--list]

Runs once, at the top, after the kit's port.py. It finds each name with a dash that a file of specs/ or proofs/ declares
(a definition, a lemma, a field, a constructor; not a goal, an invariant or a measure, whose names Rattle makes), and writes it
with `_` in every .antt and .rt file; comments and strings of .rt files stay. With --list it prints the names and changes nothing.
A lemma that would get the name of a function of src/ ends in `_lem`. It stops where two names would fall together.
"""
import pathlib
import re
import sys

# One word of antt: what stands between spaces, brackets, commas and dots.
WORD = re.compile(r"[^\s(){}\[\],;.|]+")
DECLARED = re.compile(
    r"^(?P<indent> *)(?:(?:abbrev|unfoldable|pub|data|record|ruleset)\s+)*(?P<names>[^\s:(){}\[\],;.|]+(?: [^\s:(){}\[\],;.|]+)*?)\s*"
    r"(?P<rest>[({].*)?:(?=\s|$)", re.M)
KEYWORDS = {"use", "mod", "abbrev", "unfoldable", "unfolding", "pub", "data", "record", "ruleset", "where", "let", "elim"}
MADE = ("invariant-", "decreases-")


def files(suffix, *folders):
    for folder in folders:
        for path in sorted(pathlib.Path("crates").glob(f"*/{folder}/**/*{suffix}")):
            if "out" not in path.parts:
                yield path


def new_name(name):
    if name[0].isupper():
        head, *parts = name.split("-")
        return head + "".join(p[0].upper() + p[1:] for p in parts)
    head = re.sub(r"(?<=[a-z])([A-Z])", lambda m: "_" + m.group(1).lower(), name)
    return head.replace("-", "_")


def declared():
    """Every name that a file declares at its margin, and every field or constructor, with the file."""
    for path in files(".antt", "specs", "proofs"):
        text = re.sub(r"--.*", "", path.read_text(encoding="utf-8"))
        for m in DECLARED.finditer(text):
            names = m.group("names").split(" ")
            if names[0] in KEYWORDS:
                continue
            rest = text[m.end():m.end() + 40]
            if re.match(r"\s*goal\.", rest):
                continue
            for name in names:
                yield name, path


def main():
    own, all_names = {}, set()
    for name, path in declared():
        all_names.add(name)
        if "-" in name and name[0].isalpha() and not name.startswith(MADE):
            own.setdefault(name, set()).add(str(path))
    functions = {m for path in files(".rt", "src") for m in re.findall(r"\bfn (\w+)", path.read_text(encoding="utf-8"))}
    new = {}
    for name in sorted(own):
        to = new_name(name)
        if to in functions and all("/proofs/" in p for p in own[name]):
            to += "_lem"
        new[name] = to
    together = [(n, t) for n, t in new.items() if t in all_names or list(new.values()).count(t) > 1]
    if "--list" in sys.argv:
        for name, to in new.items():
            print(name, to, *sorted(own[name]), "(also a function)" if to in functions else "")
    if together:
        sys.exit(f"these fall together with another name: {together}")
    if "--list" in sys.argv:
        return
    for path in [*files(".antt", "specs", "proofs"), *files(".rt", "src")]:
        old = path.read_text(encoding="utf-8")
        lines = []
        for line in old.split("\n"):
            code, comment = line, ""
            if path.suffix == ".rt":
                at = line.find("//")
                code, comment = (line[:at], line[at:]) if at >= 0 else (line, "")
                if '"' in code:
                    lines.append(line)
                    continue
            lines.append(WORD.sub(lambda m: new.get(m.group(0), m.group(0)), code) + comment)
        text = "\n".join(lines)
        if text != old:
            path.write_text(text, encoding="utf-8")


main()
