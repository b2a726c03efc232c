#!/usr/bin/env python3
"""Spells this repository's own definitions, lemmas, fields and variables in snake case, and calls the choice `when .. then .. else ..`.

usage: python3 tools/respell.py [--list]      at the top of the repository, once, after /opt/rattle/port/port.py

A name of ours is one that a file of specs/ or proofs/ declares, or a name in camel case that no library has. What a function of src/ is called, what Rattle
makes (goals such as returns-2) and what the libraries declare stay. Must-fail edits and the names in docs/ follow, also those that port.py turned.
The library has an operator `if .. then .. else ..` of its own now, and no repository may have another of that name.
"""
import os
import re
import sys

NAME = re.compile(r"[^\W\d][\w'₀-₉]*(?:-[\w'₀-₉]+)*'*", re.UNICODE)
OWN = sorted(os.listdir("crates"))
USE = re.compile(r"^\s*(?:ghost )?(?:pub )?use ([^\s{;]+?)(?:\.\{([^}]*)\}|\s+as\s+(\S+?))?;?\s*$", re.M)


# Two of ours that would fall together, or with a name that port.py made.
APART = {"firstByte": "first_byte_of"}
APART_IN = {"crates/layout/proofs/Elements.antt": {"at_length": "at_length_lem"}, "crates/layout/proofs/element_size/Proof.antt": {"at_length": "at_length_lem"}}


def snake(name):
    name = name.replace("-", "_")
    if name[0].isupper():
        return name
    return re.sub(r"(?<=[a-z0-9₀-₉'])([A-Z])", lambda m: "_" + m.group(1).lower(), name)


def files(*endings):
    for folder, dirs, names in os.walk("crates"):
        dirs[:] = sorted(d for d in dirs if d not in ("out", "target"))
        for f in sorted(names):
            if f.endswith(endings):
                yield os.path.join(folder, f)


def read(path):
    with open(path, encoding="utf-8") as f:
        return f.read()


def own(path):
    return bool(re.match(r"Rattle\.(%s)\." % "|".join(OWN), path)) or path.startswith("package.")


def generated(path):
    return ".declared." in path or ".contracts" in path or re.search(r"\.(Tie|Statement|Reads|Laws)$", path) is not None


def function_proof(path):
    return os.path.basename(path) in ("Proof.antt", "Answers.antt", "Invariants.antt")


def declared(text):
    """The names that a file of definitions or lemmas declares, at any depth."""
    found = set()
    for line in text.splitlines():
        if line.lstrip().startswith(("use ", "--", "pub use", "module")):
            continue
        m = re.match(r"^\s*(?:(?:pub|abbrev|unfoldable) )*(?:(?:data|record) )?([^\s:({=,;]+)\s", line)
        if m and re.search(r"(^|\s):(\s|$)", line):
            found.add(m.group(1))
    return found


def renames():
    kit, ours, tokens, source = set(), set(), set(), set()
    for path in files(".antt"):
        text = read(path)
        tokens |= set(NAME.findall(text))
        for m in USE.finditer(text):
            names = [n.strip().split(" as ") for n in (m.group(2) or "").split(",") if n.strip()]
            if not own(m.group(1)) or generated(m.group(1)):
                kit |= {n[0].strip() for n in names}
        if not function_proof(path):
            ours |= declared(text)
    for path in files(".rt"):
        text = re.sub(r"//[^\n]*", "", read(path))
        source |= set(re.findall(r"\b(?:fn|let|mut|struct|enum|mod|const)\s+([a-z_][A-Za-z0-9_]*)", text))
    camel = {t for t in tokens if "-" not in t and re.match(r"^[a-z][\w']*[a-z0-9'][A-Z]", t)}
    hyphened = {t for t in ours if "-" in t and NAME.fullmatch(t)}
    turn = {}
    for t in sorted(camel | hyphened):
        if t in kit or t in source or re.match(r"^(Need|After|Before|Start|Else|Then)-", t):
            continue
        if re.fullmatch(r"x[0-9A-F]{2}", t) or "-" in t and t not in ours:
            continue
        turn[t] = APART.get(t, snake(t))
    for t in hyphened & set(turn):
        if turn[t] in ours | {turn[c] for c in camel & set(turn)}:
            turn[t] += "_lem"
    return turn, kit, ours, tokens, source


def falls(turn, kit, ours, tokens):
    """Pairs of names that fall together, with whether a file has both."""
    back = {}
    for old, new in turn.items():
        back.setdefault(new, set()).add(old)
    clash = []
    for new, olds in sorted(back.items()):
        every = set(olds) | ({new} if new in tokens or new in kit else set())
        if len(every) > 1:
            together = []
            for path in files(".antt"):
                here = set(NAME.findall(read(path)))
                if len(here & every) > 1:
                    together.append(path)
            clash.append((new, sorted(every), together))
    return clash


def local_goals(text):
    """Names that a proof of a function declares itself: those of goals stay as Rattle made them."""
    return {m.group(1) for m in re.finditer(r"^(?:pub )?([^\s:]+) : (?:\{[^}]*\} → )?\w*\.?Need-", text, re.M)}


def respell(text, turn, keep=frozenset()):
    return NAME.sub(lambda m: turn[m.group(0)] if m.group(0) in turn and m.group(0) not in keep else m.group(0), text)


CHOICE = re.compile(r"(?<![\w.'◌-])if(?![\w'◌-])|if(?=◌then◌else◌)")


def choice(text):
    """The choice under its own name, outside of comments."""
    out = []
    for line in text.split("\n"):
        code, dashes, comment = line.partition("--")
        out.append(CHOICE.sub("when", code) + dashes + comment)
    return "\n".join(out)


def choice_in_edit(text):
    """The same in an edit of specs/ or proofs/."""
    return choice(text) if re.match(r"file: \S+\.antt", text) else text


def turned_by_port():
    """Names that port.py itself turned: 'name-of' or 'nameOf' is now 'name_of'."""
    turn = {}
    said = "tools/port-names.txt"
    if os.path.exists(said):
        for t in read(said).split():
            turn[t] = snake(t)
    return turn


def main():
    turn, kit, ours, tokens, source = renames()
    if "--list" in sys.argv:
        for new, every, together in falls(turn, kit, ours, tokens):
            print("together:", new, every, together[:6])
        print(len(turn), "names")
        for t in sorted(turn):
            print(t, turn[t])
        return
    for path in files(".antt", ".rt"):
        text = read(path)
        keep = local_goals(text) if function_proof(path) else frozenset()
        new = respell(text, APART_IN.get(path, {}) | turn, keep)
        if path.endswith(".antt"):
            new = choice(new)
        if new != text:
            with open(path, "w", encoding="utf-8") as f:
                f.write(new)
    more = turned_by_port() | turn
    for path in files(".edit"):
        text = read(path)
        new = choice_in_edit(respell(text, more))
        if new != text:
            with open(path, "w", encoding="utf-8") as f:
                f.write(new)
    pages = ["README.md"] + sorted(os.path.join("docs", f) for f in os.listdir("docs") if f.endswith(".md") and f != "PORT.md")
    for path in pages:
        text = read(path)
        new = re.sub(r"`[^`\n]+`", lambda m: respell(m.group(0), more), text)
        if new != text:
            with open(path, "w", encoding="utf-8") as f:
                f.write(new)
    print("respell:", len(turn), "names turned")


main()
