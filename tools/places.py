#!/usr/bin/env python3
"""Lists the places in crates/*/src that docs/DESIGN-PASS.md counts, by search for their forms.

    tools/places.py             the number of places of each form
    tools/places.py POINT..     those of these points, each with file and line

Run at another commit from a worktree: `tools/places.py --at FOLDER`.
"""
import collections
import pathlib
import re
import sys

args = sys.argv[1:]
top = pathlib.Path(__file__).resolve().parent.parent
if args[:1] == ["--at"]:
    top = pathlib.Path(args[1])
    args = args[2:]

files = {
    str(f.relative_to(top / "crates")): f.read_text()
    for f in sorted((top / "crates").glob("*/src/**/*.rt"))
}


def bare(text):
    """The text with comments blanked, so that lines keep their numbers."""
    return re.sub(r"//[^\n]*", "", text)


def found(pattern, flags=re.S):
    out = []
    for name, text in files.items():
        text = bare(text)
        for m in re.finditer(pattern, text, flags):
            out.append((name, text.count("\n", 0, m.start()) + 1, " ".join(m.group(0).split())))
    return out


FUNCTION = re.compile(
    r"(?:pub(?:\([^)]*\))? )?(?:final )?(?:extern \"C\" )?fn (\w+)(?:<[^{(]*>)?\(([^{]*?)\)(?: -> ([^\n]*?))?\n?((?:\s*(?:requires|ensures)\b[^\n]*\n)*)\s*(?=[{;])"
)


def functions():
    for name, text in files.items():
        text = bare(text)
        for m in FUNCTION.finditer(text):
            yield name, text.count("\n", 0, m.start()) + 1, m


def conjuncts(clause):
    """The facts that a clause joins by ×, at any depth of brackets around the whole."""
    clause = clause.strip()
    while clause.startswith("(") and clause.endswith(")"):
        depth, whole = 0, True
        for i, c in enumerate(clause):
            depth += (c == "(") - (c == ")")
            if depth == 0 and i < len(clause) - 1:
                whole = False
                break
        if not whole:
            break
        clause = clause[1:-1].strip()
    parts, depth, start = [], 0, 0
    for i, c in enumerate(clause):
        depth += (c == "(") - (c == ")")
        if c == "×" and depth == 0:
            parts.append(clause[start:i])
            start = i + 1
    parts.append(clause[start:])
    if len(parts) == 1:
        return [" ".join(parts[0].split())]
    return [f for p in parts for f in conjuncts(p)]


def facts():
    """Facts that three or more functions require (with the first argument's field path taken off)."""
    seen = collections.defaultdict(list)
    for name, line, m in functions():
        mine = set()
        for clause in re.findall(r"requires(?: \w+)? \{(.*)\}", m.group(4)):
            for fact in conjuncts(clause):
                mine.add(re.sub(r"\.(old|now|new)\b", "", fact))
        for fact in mine:
            seen[(name.split("/")[0], fact)].append((name, line, m.group(1)))
    return [
        (places[0][0], places[0][1], f"`{fact}` in {len(places)}: " + ", ".join(p[2] for p in places))
        for (_, fact), places in sorted(seen.items())
        if len(places) >= 3
    ]


def together():
    """Pairs of parameters that three or more functions of a crate take side by side."""
    seen = collections.defaultdict(list)
    for name, line, m in functions():
        ps = [" ".join(p.split()) for p in m.group(2).split(",") if ":" in p]
        for a, b in zip(ps, ps[1:]):
            seen[(name.split("/")[0], a, b)].append((name, line, m.group(1)))
    return [
        (places[0][0], places[0][1], f"({a}, {b}) in {len(places)}: " + ", ".join(p[2] for p in places))
        for (_, a, b), places in sorted(seen.items())
        if len(places) >= 3
    ]


def same_name():
    """Names that two or more functions of a crate's own impls have (not an impl's of a trait)."""
    seen = collections.defaultdict(list)
    for name, text in files.items():
        if name.endswith("tests.rt"):
            continue
        text = bare(text)
        where = ""
        for n, l in enumerate(text.split("\n"), 1):
            if re.match(r"impl", l):
                where = "trait" if " for " in l else "own"
            elif l.startswith("}"):
                where = ""
            m = re.match(r"\s*(?:pub(?:\([^)]*\))? )?(?:extern \"C\" )?fn (\w+)", l.replace("unsafe ", ""))
            if m and where != "trait" and m.group(1) not in ("new", "main"):
                seen[m.group(1)].append((name, n))
    return [
        (places[0][0], places[0][1], f"{f}: " + ", ".join(f"{a}:{b}" for a, b in places))
        for f, places in sorted(seen.items())
        if len(places) >= 2
    ]


def same_fields():
    """Structs whose fields have the same names."""
    seen = collections.defaultdict(list)
    for name, text in files.items():
        text = bare(text)
        for m in re.finditer(r"struct (\w+)(?:<[^>]*>)? \{(.*?)\n\}", text, re.S):
            fields = tuple(re.findall(r"^\s*(?:pub(?:\([^)]*\))? )?(\w+):", re.sub(r"ghost [^\n]*", "", m.group(2)), re.M))
            seen[fields].append((name, text.count("\n", 0, m.start()) + 1, m.group(1)))
    return [
        (places[0][0], places[0][1], ", ".join(p[2] for p in places))
        for fields, places in sorted(seen.items())
        if len(places) >= 2
    ]


FORMS = [
    ("1", "an Option or Result opened only to be packed again (let .. else)", lambda: found(r"let (?:Some|Ok)\([^=]*?\) = [^;{]*? else \{\s*return (?:Err|None)[^;]*;")),
    ("1", "the same by match", lambda: found(r"(?:None => None|None => Err\(|None => 0\b|Err\((\w+)\) => Err\(\1\)|Err\(_\) => 0|Ok\(_\) => None|Err\(_\) => Err\(|None => unreachable|Err\((\w+)\) => Some\(\2\))")),
    ("1", "a flag beside a value, or two flags", lambda: found(r"\n    (?:pub )?\w+: bool,")),
    ("1", "a number that stands for a kind, a refusal or nothing", lambda: found(r"number: u32,\n    pub part|NONE_FIGURE: u16|fn number\(self\)")),
    ("2", "functions of one name in several impls or modules", same_name),
    ("2", "structs of the same fields", same_fields),
    ("3", "while and loop", lambda: found(r"\b(?:while\b[^{\n]*|loop )\{")),
    ("3", "for over a range of numbers", lambda: found(r"\bfor \w+ in \w*\d*\.\.[^{]*\{|\bfor \w+ in \w+\.\.[^{]*\{")),
    ("3", "a search by enumerate and return", lambda: found(r"for \([^)]*\) in [^{]*enumerate\(\) \{")),
    ("3", "a sum or a fold by hand in a for", lambda: found(r"for \w+ in [^{]*\{\s*(?:if let [^{]*\{\s*)?\w+ (?:\+)?= [^}]*\}")),
    ("4", "a letter, a number, an order or a text by a method of its own", lambda: found(r"fn (?:letter|from_letter|figure_number|other_side|is_word|number\(self\)|closed_line|refused_line|put_distance|print_drawn|most_points)\b")),
    ("4", "an error made by hand where ? could", lambda: found(r"let Ok\([^;]*?NoMemory\);|Err\(\w+::NoMemory\) => Err")),
    ("5", "a fact that three or more functions of a crate require", facts),
    ("5", "parameters that three or more functions of a crate take side by side", together),
    ("6", "a count, length or place beside a buffer", lambda: found(r"\n    (?:pub(?:\([^)]*\))? )?(?:count|len|at): usize,")),
    ("6", "a text or a slice that is read by an index or empty past its end", lambda: found(r"if \w+ < \w+\.len\(\) \{")),
    ("7", "a chain of comparisons that picks a step", lambda: found(r"as_str\(\) == \"")),
    ("7", "the same step for either side, picked by match", lambda: found(r"Side::Entry => (?:&mut )?self\.\w+")),
]


def in_proofs(pattern):
    """Lines of proofs/ that begin so."""
    return [
        (str(f.relative_to(top / "crates")), n, l)
        for f in sorted((top / "crates").glob("*/proofs/**/*.antt"))
        for n, l in enumerate(f.read_text().split("\n"), 1)
        if re.match(pattern, l)
    ]


FORMS += [
    ("8", "answers to goals in proofs/", lambda: in_proofs(r"(?:abbrev )?pub \S+ : goal\.")),
    ("8", "lemmas in proofs/", lambda: in_proofs(r"(?:pub )?[a-z][\w'-]* : ")),
]

for point, title, look in FORMS:
    if args and point not in args:
        continue
    places = look()
    print(f"{point}  {len(places):4}  {title}")
    if args:
        for name, line, text in places:
            print(f"        {name}:{line}: {text[:150]}")
