#!/usr/bin/env python3
"""Brings this repository's own definitions and lemmas to the spelling of today's Rattle, after port.py, once.

usage: python3 tools/respell.py      at the top of the repository

A definition or lemma in camel case goes to snake case; a dash in a name becomes `_`, but where it joins the names of two definitions. Functions of src/
keep their names. Goals that a proof of a function answers keep theirs. It stops, and writes nothing, where two names of a file would fall together.
"""
import collections
import glob
import re
import sys

WORDS = {"length", "take", "drop", "map", "append", "replicate", "foldl", "cond", "set", "sets", "zip", "eq", "lt", "le", "zero", "table", "part", "get_or", "suc",
         "snoc", "filled", "zip_with", "sqrt", "isqrt"}
DECLARED = re.compile(r"(?m)^((?:(?:abbrev|unfoldable|pub|data|record|ruleset) +)*)([^\s:(){}\[\].,;]+) *:(?!\S)")
INNER = re.compile(r"(?m)^ +pub ([^\s:(){}\[\].,;=]+) *:(?!\S)")
MEMBER = re.compile(r"(?m)^ +(?:pub )?([^\s:(){}\[\].,;=]+) *:(?!\S) *(?!tie\.)")
# lemmas that would have the name of the definition they are about, by the crate
LEMMAS = {("best", "units_of", "unitsOf"): "units_of_lem", ("harmonic", "is_digit", "isDigit"): "is_digit_lem", ("linalg", "in_order", "inOrder"): "in_order_lem",
          ("pmf", "room-sizes", "roomSizes"): "room_sizes_lem", ("pmf", "fit-text", "fitText"): "fit_text_lem", ("float", "is-nan", "isFinite"): "is_nan_lem"}
# names that the rules leave as no reader expects, or that a field of a record has
DEFINITIONS = {"change-room": "change_room", "huberK": "huber_k_of", "pierSensitive": "pier_sensitive_of"}
EDGE = r"[\w\-'→←≤≡≢#₀₁₂]"


def files():
    found = []
    for part in ("specs", "proofs"):
        found += glob.glob(f"crates/*/{part}/**/*.antt", recursive=True)
    return sorted(f for f in found if "/out/" not in f)


def sources():
    return sorted(f for f in glob.glob("crates/*/src/**/*.rt", recursive=True) if "/out/" not in f)


def is_goal(text, name):
    return re.search(r"(?m)^(?:abbrev )?(?:pub )?" + re.escape(name) + r" : (?:tie|goal)\.", text) is not None


def declared():
    """The repository's own names, and of these the definitions."""
    names, definitions = set(), set()
    for f in files():
        text = open(f, encoding="utf-8").read()
        for _, name in DECLARED.findall(text):
            if not is_goal(text, name):
                names.add(name)
                if "/specs/" in f:
                    definitions.add(name)
        if not f.endswith(("Proof.antt", "Answers.antt")):
            names.update(INNER.findall(text))
        for block in re.findall(r"(?m)^pub (?:record|data) .*\n(?:[ ].*\n|\n)+|^(?:record|data) .*\n(?:[ ].*\n|\n)+", text):
            names.update(MEMBER.findall(block))
    return names, definitions


def snake(word):
    return re.sub(r"(?<=[a-z0-9])([A-Z])", lambda m: "_" + m[1].lower(), word)


def respelled(name, definitions):
    if name[0] in "#+" or name[0].isupper():
        return name
    parts = [snake(it) for it in name.split("-")]
    known = {snake(it) for it in definitions} | WORDS
    out = parts[0]
    for left, right in zip(parts, parts[1:]):
        joins = out in known and right in known
        out += ("-" if joins else "_") + right
    return out


def main():
    names, definitions = declared()
    turned = {n: DEFINITIONS.get(n) or respelled(n, definitions) for n in names}
    turned = {n: t for n, t in turned.items() if n != t}
    if not turned:
        return 0
    pattern = re.compile(f"(?<!{EDGE})(" + "|".join(re.escape(n) for n in sorted(turned, key=len, reverse=True)) + f")(?!{EDGE})")
    word = re.compile(EDGE + "+")
    written, bad = {}, 0
    for f in files() + sources():
        text = open(f, encoding="utf-8").read()
        for (of, old, definition), new in LEMMAS.items():
            if of == f.split("/")[1] and "/proofs/" in f and (definition in names or of == "float"):
                text = re.sub(f"(?<!{EDGE}|\\.){re.escape(old)}(?!{EDGE})", new, text)
        imported = set()
        crate = f.split("/")[1]
        for module, listed in re.findall(r"(?m)^(?:ghost )?(?:pub )?use ([\w.+·-]+)\.\{([^}]*)\}", text):
            if not module.startswith("Rattle.") or module.startswith("Rattle.std."):
                imported.update(it.strip().split(" as ")[0] for it in listed.split(","))
        skipped = {n for n in turned if n in imported or is_goal(text, n)}
        before = set(word.findall(re.sub(r"(?m)(?:^|\s)--( .*)?$", "", text)))
        if f.endswith(".rt"):
            # a clause sees the parameters, and no function of src/
            before = set(re.findall(r"(?:[(,] *|^ *)(?:mut )?(\w+): ", text, re.M)) - set(re.findall(r"(?m)^ +(?:pub )?(\w+): ", text))
        elif f.endswith("Proof.antt"):
            before -= set(f.split("/")[3:-1])
        seen = collections.defaultdict(set)

        def turn(m):
            n = m[1]
            if n in skipped:
                return n
            seen[turned[n]].add(n)
            return turned[n]

        lines = []
        for line in text.split("\n"):
            cut = re.search(r"(?:^|\s)(--|//)( |$)", line)
            code, comment = (line[: cut.start()], line[cut.start():]) if cut else (line, "")
            code = "".join(part if part.startswith('"') else pattern.sub(turn, part) for part in re.split(r'("[^"\n]*")', code))
            comment = re.sub(r"`[^`]*`", lambda m: pattern.sub(turn, m[0]), comment)
            lines.append(code + comment)
        for new, olds in seen.items():
            if new in before or len(olds) > 1:
                print(f"{f}: {', '.join(sorted(olds))} would be {new}, which is there")
                bad += 1
        out = "\n".join(lines)
        if out != text:
            written[f] = out
    if bad and "--force" not in sys.argv:
        raise SystemExit(f"respell: {bad} names fall together; nothing was written")
    for f, out in written.items():
        open(f, "w", encoding="utf-8").write(out)
    # what a file brings in under another name
    for f in files() + sources():
        text = open(f, encoding="utf-8").read()
        out = text
        for name in set(re.findall(r" as ([a-z]\w*[A-Z]\w*)", text)):
            out = re.sub(rf"\b{name}\b", "single_step_case" if name == "singleStep" else snake(name), out)
        if out != text:
            open(f, "w", encoding="utf-8").write(out)
    there = declared()[0]

    def cited(m):
        name = m[1]
        new = turned.get(name) or re.sub(r"^_(.+)_$", r"◌\1◌", snake(name).replace("-", "_") if re.match("[a-z]", name) else name)
        return f"`{new}`" if name not in there and new in there else m[0]

    for f in glob.glob("docs/*.md") + ["README.md", "oracle/README.md", "host/README.md"]:
        text = open(f, encoding="utf-8").read()
        out = re.sub(r"`([^`\s]+)`", cited, text)
        if out != text:
            open(f, "w", encoding="utf-8").write(out)
            print("docs:", f)
    print(f"respell: {len(turned)} names, {len(written)} files")
    return len(turned)


while main():
    pass
