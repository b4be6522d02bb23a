#!/usr/bin/env python3
"""Spells the names that the .antt files of crates/ declare as this Rattle does: definitions, lemmas, fields and antt's constructors in snake
case, types and modules in camel case. Usage: tools/snake_names.py [FOLDER], the folder that has crates/ (this repository if none is given).

It was run once, after the kit's port.py, and again on a checkout of the last version in the older spelling, so that the two can be laid side by
side (docs/PORT.md); on files that have the newer spelling it changes nothing. It rewrites specs/, proofs/, the clauses, attributes and comments of
src/, the lines of must-fail edits, and names in the pages of docs/, README.md and include/. Rust's names, the library's, those that Rattle makes, strings
and file names stay. It ends with 1 and writes nothing where two names of a file would become one."""
import re
import sys
from pathlib import Path

ROOT = Path(sys.argv[1] if len(sys.argv) > 1 else Path(__file__).resolve().parent.parent)
CRATES = ROOT / "crates"

# a lemma that would have a definition's name ends in _lem
LEMMAS = """after-counts after-snippets built-memory counts-fit cut-more field-fault frame-bytes frame-in frames-bytes image-bytes
    image-from image-item image-size in-etwm in-turn is-DA7281 is-session memory-fault memory-from next-frame no-frame no-image no-sequence no-sequences
    no-snippet no-snippets number-of point-byte point-fault polarity-code refused-new run-frames sequence-fault snippet-fault three-bytes
    with-frame with-made with-point with-sequence with-settings with-snippet""".split()
# a lemma that already has the name which a definition gets, and that definition
TAKEN = {"made_fault": "madeFault"}
# laws that have the name of a claim's field
FIELDS = set("drivePoints goesOn wholeOrNothing loopsRead".split())
# the one local name in camel case
LOCALS = {"lockAfter": "lock_after"}

MARKS = {"abbrev", "unfoldable", "pub", "opaque", "pattern", "instance", "record", "data", "ruleset", "axiom"}
NAME = re.compile(r"[^\s(){}.;,@\"«»]+")
STRING = re.compile(r'"(?:[^"\\\n]|\\.)*"')
COMMENT = re.compile(r"(?:^|(?<=\s))--(?:\s.*|$)|//.*$", re.M)
# a name in Rust's text, where a hyphen joins only what stands in a clause
WORD = re.compile(r"(?<![\w'-])[A-Za-z][\w']*(?:-[\w']+)*(?![\w'-])")
CODE = re.compile(r"`[^`\n]+`")


def snake(name):
    name = re.sub(r"([a-z0-9])([A-Z]+)(?=$|[^a-z])", lambda m: f"{m[1]}_{m[2].lower()}", name)
    return re.sub(r"([a-z0-9])([A-Z])", lambda m: f"{m[1]}_{m[2].lower()}", name).replace("-", "_")


def files(*globs):
    for glob in globs:
        for path in sorted(ROOT.glob(glob)):
            if "/out/" not in str(path.relative_to(ROOT)) and path.is_file():
                yield path


def of_a_function(path):
    """Whether Rattle makes this file's names: answers, invariants and proofs of one function."""
    return path.name in ("Answers.antt", "Invariants.antt", "Proof.antt") and path.parent.name != "proofs"


def declared():
    """The names that the definitions and laws declare."""
    names, constructors, last = set(), set(), None
    for path in files("crates/*/specs/**/*.antt", "crates/*/proofs/**/*.antt"):
        for line in COMMENT.sub("", STRING.sub('""', path.read_text())).split("\n"):
            words = line.split()
            marks = [w for w in words if w in MARKS]
            at = next((i for i, w in enumerate(words) if w not in MARKS), None)
            if at is None or len(words) < at + 2:
                last = last if not words else None
                continue
            name, behind = words[at], words[at + 1]
            is_declared = behind == ":" or marks and behind[0] in "({" and " : " in line
            if is_declared and NAME.fullmatch(name) and name[0].isalpha() and name not in ("let", "in", "use", "module"):
                if not of_a_function(path):
                    names.add(name)
                    if last == "data" and line.startswith(" ") and name[0].isupper():
                        constructors.add(name)
            if "data" in marks:
                last = "data"
            elif not line.startswith(" "):
                last = None
    return names, constructors


def table():
    names, constructors = declared()
    turned = {n: snake(n) for n in names if n[0].islower() and snake(n) != n}
    turned |= {n: snake(n).lower() + "_lem" for n in LEMMAS if n in names}
    turned |= {n: n + "_lem" for n, old in TAKEN.items() if {n, old} <= names}
    turned |= {n: snake(n[0].lower() + n[1:]) for n in constructors}
    return turned | LOCALS


def named(text, turned, bare=()):
    """Text of antt. A constructor that began with a capital stands behind `Call.`, or bare in a file that declares it or brings it in: a module or a
    variant of Rust's may have its name."""
    def turn(m):
        if m[0] in UPPER and not text[:m.start()].endswith("Call.") and (m[0] not in bare or text[m.end():m.end() + 1] == "."):
            return m[0]
        return turned.get(m[0], m[0])

    return NAME.sub(turn, text)


def brought(text):
    """The constructors of this file and those that it brings in by name."""
    lists = re.findall(r"\buse Rattle\.[^{;\n]*\{([^}]*)\}", text)
    return UPPER & {n for names in lists + re.findall(r"^ +(?:pub )?(\w+) :", text, re.M) for n in NAME.findall(names)}


def antt(text, turned):
    """A file of antt: comments too, of hyphened names only those in backticks."""
    bare = brought(text)

    def code(part):
        return named(part, turned, bare)

    out, at = [], 0
    for m in re.finditer(f"({STRING.pattern})|({COMMENT.pattern})", text, re.M):
        out += [code(text[at:m.start()]), m[1] or prose(m[2], turned)]
        at = m.end()
    return "".join(out) + code(text[at:])


def prose(text, turned):
    plain = {old: new for old, new in turned.items() if "-" not in old and re.search("[a-z][A-Z]", old) and old not in UPPER}
    text = CODE.sub(lambda m: WORD.sub(lambda w: turned.get(w[0], w[0]) if w[0] not in UPPER else w[0], m[0]), text)
    return WORD.sub(lambda m: plain.get(m[0], m[0]), text)


def rust(text, turned):
    """A file of Rattle's code, or a line of one: names of antt stand in clauses, in ghost items and in attributes."""
    def part(m):
        if m[1] or m[2]:
            return m[1] or prose(m[2], turned)
        return named(m[3], turned) if m[3] else "::".join(w if w in UPPER else turned.get(w, w) for w in m[4].split("::"))

    clause = r"(?:\b(?:requires|ensures)\b\s*\w*\s*|\bghost\s+(?!use\b)[\w']+\s*[:=]\s*)\{(?:[^{}]|\{(?:[^{}]|\{[^{}]*\})*\})*\}|\bghost use [^;]*;"
    path = r"\b\w+::(?:specs|proofs)(?:::[\w'-]+)+"
    return re.sub(f"({STRING.pattern})|({COMMENT.pattern})|({clause})|({path})", part, text, flags=re.M)


def edit(text, turned):
    out, of = [], ".antt"
    for line in text.split("\n"):
        if m := re.match(r"file: *(\S+)", line):
            of = Path(m[1]).suffix
        if m := re.match(r"(old|new): ", line):
            rest = line[m.end():]
            line = m[0] + (named(rest, turned) if of == ".antt" else rust(rest, turned))
        elif line.startswith("#"):
            line = prose(line, turned)
        out.append(line)
    return "\n".join(out)


def clashes(path, text, turned):
    """The names of a file that would become one; a field that it declares stands behind a dot elsewhere."""
    code = COMMENT.sub("", STRING.sub('""', text))
    fields = FIELDS | {n for block in re.findall(r"^ *(?:pub )?record .*\n((?:(?: .*)?\n)*)", code, re.M) for n in re.findall(r"^ +(?:pub )?(\S+) :", block, re.M)}
    bare = set(re.findall(r"(?<![^\s(){};,@\"«»])([^\s(){}.;,@\"«»]+)", code)) - fields
    came = {}
    for name in bare | set(NAME.findall(code)):
        new = turned.get(name)
        if new:
            came.setdefault(new, set()).add(name)
    for new, olds in came.items():
        both = {n for n in olds if n in bare}
        if len(both) > 1 or both and new in bare and new not in turned:
            yield f"{path.relative_to(ROOT)}: {' '.join(sorted(olds | ({new} if new in bare else set())))} -> {new}"


def main():
    global UPPER
    if not CRATES.is_dir():
        print(f"{CRATES} is missing")
        return 1
    turned = table()
    UPPER = {n for n in turned if n[0].isupper()}
    found = [line for path in files("crates/*/specs/**/*.antt", "crates/*/proofs/**/*.antt") for line in clashes(path, path.read_text(), turned)]
    if found:
        print("two names would become one:", *found, sep="\n  ")
        return 1
    ways = [(antt, ("crates/*/specs/**/*.antt", "crates/*/proofs/**/*.antt")), (rust, ("crates/*/src/**/*.rt",)), (edit, ("crates/*/must-fail/*.edit",)),
            (prose, ("README.md", "docs/*.md", "docs/changes/*.md", "include/*.h"))]
    changed = 0
    for turn, globs in ways:
        for path in files(*globs):
            old = path.read_text()
            new = turn(old, turned)
            if new != old:
                path.write_text(new)
                changed += 1
    print(f"{len(turned)} names, {changed} files")
    return 0


if __name__ == "__main__":
    sys.exit(main())
