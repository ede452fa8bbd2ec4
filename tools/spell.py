#!/usr/bin/env python3
"""Spells the repository's own definitions and lemmas as today's Rattle does: words in snake case.

usage: tools/spell.py [--list]        at the top of the repository, once, after port.py; --list only prints OLD NEW, a line each

A name that is declared in specs/ or in a lemma file of proofs/ (a definition, a lemma, a field of a record, a constructor) and is not a type
goes to snake case: inAmount to in_amount, deposit-keeps to deposit_keeps. A part that begins with a capital is the name of a type and stays, with
the dash before it. Functions of src/, types, modules, exported names, strings, inputs and outputs keep their names.
A lemma whose name would then be a definition's gets _lem.
"""
import os
import re
import subprocess
import sys

WORD = re.compile(r"[^\s(){}.;,@\"«»\[\]\\`]+")
CAMEL = re.compile(r"[a-z0-9][A-Z]")
DECLARED = re.compile(r"^(?:(?:pub|abbrev|unfoldable|unfolded) )*([^\s(){}:.;,]+) :(?= |$)")
FIELD = re.compile(r"^ +(?:pub )?([^\s(){}:.;,]+) : ")
CASE = re.compile(r"^ +(?:\| )?([^\s(){}:.;,]+) : ")
# a name of the library in its old spelling, inside a lemma's name
WORDS = {"getD": "get_or"}


def files(kinds):
    for folder, folders, names in os.walk("crates"):
        folders[:] = sorted(f for f in folders if f != "out")
        for name in sorted(names):
            if name.endswith(kinds):
                yield os.path.join(folder, name)


def read(path):
    with open(path, encoding="utf-8") as it:
        return it.read()


def is_lemma_file(path):
    parts = path.split("/")
    return parts[2] == "specs" or (parts[2] == "proofs" and parts[-1] not in ("Proof.antt", "Answers.antt", "Invariants.antt"))


def snake(word):
    word = WORDS.get(word, word)
    return re.sub(r"(?<=[a-z0-9])([A-Z])", lambda m: "_" + m[1].lower(), word)


def spelled(name):
    out = ""
    for part in re.split(r"(?<=.)-", name):
        if not re.match(r"[a-z]", part):
            out += "-" + part
        else:
            # after a type or a sign the dash stays
            dash = "" if not out else "_" if re.search(r"(?:^|[_-])[a-z][a-z0-9_']*$", out) else "-"
            out += dash + snake(part)
    return out.removeprefix("-")


def declared():
    """Each name that is declared, and whether it is camel case, which is what definitions were."""
    found = set()
    for path in files((".antt",)):
        if not is_lemma_file(path):
            continue
        for line in read(path).split("\n"):
            for at in (DECLARED, FIELD, CASE):
                m = at.match(line)
                if m and re.match(r"[a-z]", m[1]):
                    found.add(m[1])
    return found


def camels():
    """Local names in camel case too."""
    found = set()
    for path in files((".antt",)):
        for name in WORD.findall(re.sub(r"--.*", "", read(path))):
            if re.match(r"[a-z]", name) and CAMEL.search(name):
                found.add(name)
    return found


def of_the_library(names):
    """The names that std has too."""
    # `rt doc` prints the path of a page at the top of the kit
    base = os.path.dirname(subprocess.run(["rt", "doc"], capture_output=True, text=True, check=True).stdout.strip())
    seen = set()
    for folder, _, found in os.walk(os.path.join(base, "rattle")):
        for name in found:
            if name.endswith((".antt", ".rt")):
                with open(os.path.join(folder, name), encoding="utf-8", errors="replace") as it:
                    for word in set(WORD.findall(it.read())) & names:
                        seen.add(word)
    return seen


def table():
    own = declared() | camels()
    changed = {it: spelled(it) for it in own if spelled(it) != it}
    foreign = {it for it in of_the_library(set(changed)) if not CAMEL.search(it)}
    changed = {a: b for a, b in changed.items() if a not in foreign}
    # two names that fall together: what was in camel case is the definition
    taken = {}
    for name in own:
        taken.setdefault(changed.get(name, name), []).append(name)
    for new, names in taken.items():
        if len(names) > 1:
            names.sort(key=lambda it: (not CAMEL.search(it), "-" in it))
            for other in names[1:]:
                changed[other] = new + "_lem"
    return changed


def turned(path, text, changed):
    # a name that a Rust function could have too is turned only where no function can stand
    plain = {a for a in changed if "-" not in a and not CAMEL.search(a)}
    is_antt = path.endswith(".antt")

    def words(part, is_remark=False):
        out, end = "", 0
        for m in WORD.finditer(part):
            word = m[0]
            if word in plain and (not is_antt or part[: m.start()].endswith(".")):
                new = word
            elif is_remark and not CAMEL.search(word):
                new = word
            else:
                new = changed.get(word, word)
            out, end = out + part[end : m.start()] + new, m.end()
        return out + part[end:]

    def remark(part):
        # a remark is English: names in camel case alone, and what stands in backticks
        pieces = re.split(r"(`[^`\n]*`)", part)
        return "".join(words(it, not it.startswith("`")) for it in pieces)

    if path.endswith(".md"):
        return "".join(words(it) if it.startswith("`") else it for it in re.split(r"(`[^`\n]*`)", text))
    kept = r"--[^\n]*" if is_antt else r"//[^\n]*|\"(?:[^\"\\\n]|\\.)*\""
    out = ""
    for piece in re.split(f"({kept})", text):
        if piece.startswith(("--", "//")):
            out += remark(piece)
        elif piece.startswith('"') and not is_antt:
            out += piece
        else:
            out += words(piece)
    return out


def main():
    changed = table()
    if "--list" in sys.argv:
        for a, b in sorted(changed.items()):
            print(a, b)
        return
    pages = ["README.md"] + [os.path.join("docs", f) for f in os.listdir("docs") if f.endswith(".md")]
    for path in [*files((".antt", ".rt", ".edit")), *pages]:
        text = read(path)
        new = turned(path, text, changed)
        if new != text:
            with open(path, "w", encoding="utf-8") as it:
                it.write(new)


main()
