#!/usr/bin/env python3
"""Turns the must-fail edits to today's spelling, after tools/spell.py has turned their names.

usage: tools/turn_edits.py [--list]      at the top of the repository, once; --list only prints OLD and NEW of what it turns

An `old:` text that stands in its file exactly once stays as it is, and its `new:` text with it, but for names. Of the others
the clauses, projections, names and values at a reference are spelled as the file spells them:
    ensures { λ r. ⌜ r ≡ f x ⌝ }     ensures { result ≡ f x }
    (p .balance), f x .total         p.balance, (f x).total
    now (s .entry)                   s.now, or s.old of a &mut
    negℤ, leZ, piecesOf              neg_ℤ, le_z, pieces_of
What then still stands not once is told, and is to be mended by hand. A group's pairs are tried one after another, as `rt must-fail` does.
"""
import glob
import os
import re
import sys

CAMEL = re.compile(r"(?<=[a-z0-9])([A-Zℤ])")
# what ends an application
SIGNS = {"=", "≡", "≢", "&&", "||", "++", "∷", "+", "*", "/", "-", "+ℤ", "-ℤ", "≤", "<", "×", "→", "gives", ",", ";", "|", "↦", "."}
TOKEN = re.compile(r"\s+|[()\[\]{},;|]|λ [^.]*\.|\.\w[\w']*|[^\s()\[\]{},;|]+")


def read(path):
    with open(path, encoding="utf-8") as it:
        return it.read()


def known(folder):
    """All words of the crate's files."""
    words = set()
    for at, folders, names in os.walk(folder):
        folders[:] = [f for f in folders if f in ("src", "specs", "proofs") or at != folder]
        for name in names:
            if name.endswith((".rt", ".antt")):
                words |= set(re.findall(r"[\w'ℤ]+", read(os.path.join(at, name))))
    return words


def named(text, words):
    def one(m):
        new = CAMEL.sub(lambda c: "_" + c[1].lower(), m[0])
        return new if m[0] not in words and new in words else m[0]

    return re.sub(r"[a-z][\w'ℤ]*", one, text)


def clauses(text):
    def one(m):
        return "{ " + re.sub(rf"(?<![\w.]){m[1]}(?![\w])", "result", m[2]) + " }"

    text = re.sub(r"\{ λ (\w+)\. ⌜ (.*) ⌝ \}", one, text)
    return re.sub(r"\{ ⌜ (.*) ⌝ \}", r"{ \1 }", text)


def projected(text):
    """Writes each projection right after what it is of: a name, or a term in parentheses."""
    tokens = TOKEN.findall(text)

    def group(at, close):
        """Turns what stands up to the closing sign; the text, and the place after it."""
        out, run = "", []

        def flush():
            nonlocal out, run
            out += "".join(run)
            run = []

        while at < len(tokens):
            t = tokens[at]
            if t == close:
                flush()
                return out, at
            if t in "([{":
                inner, end = group(at + 1, {"(": ")", "[": "]", "{": "}"}[t])
                shut = tokens[end] if end < len(tokens) else ""
                # what was in parentheses only for its projections
                lone = t == "(" and re.fullmatch(r"(\w[\w']*|\([^()]*\))(\.\w[\w']*)+", inner) and " ." in "".join(tokens[at:end])
                run.append(inner if lone else t + inner + shut)
                at = end + 1
            elif re.fullmatch(r"\.\w[\w']*", t) and run:
                space = len(run) - 1 if run[-1].isspace() else len(run)
                first = 1 if run[0].isspace() else 0
                lead, body = "".join(run[:first]), run[first:space]
                if len(body) == 1:
                    run = [*run[:first], body[0] + t]
                else:
                    run = [*run[:first], "(" + "".join(body) + ")" + t]
                at += 1
            elif t in SIGNS or t.startswith("λ "):
                flush()
                out += t
                at += 1
            else:
                run.append(t)
                at += 1
        flush()
        return out, at

    return group(0, None)[0]


def nows(text, value):
    """Spells the value at a reference: now (s .entry) is s.now, or s.old of a &mut."""
    text = re.sub(r"\(now \((\w+)\.entry((?:\.\w+)*)\)\)", lambda m: f"{m[1]}.entry{m[2]}.now" if m[2] else f"{m[1]}.{value}", text)
    text = re.sub(r"\(now (\w+)\.entry((?:\.\w+)*)\)", lambda m: f"{m[1]}.entry{m[2]}.now" if m[2] else f"{m[1]}.{value}", text)
    text = re.sub(r"(?<![.\w])now (\w+)\.entry", lambda m: f"{m[1]}.{value}", text)
    return re.sub(r"\((\w+\.old|\w+\.now)\)((?:\.\w+)+)", r"\1\2", text)


def ways(text, words):
    text = named(clauses(text), words)
    yield text
    after = projected(text)
    for value in ("now", "old"):
        yield nows(after, value)


def main():
    is_list = "--list" in sys.argv
    left = 0
    for edit in sorted(glob.glob("crates/*/must-fail/*.edit")):
        folder = "/".join(edit.split("/")[:2])
        words, texts, path, old, out = known(folder), {}, "", None, []
        for line in read(edit).split("\n"):
            if line.startswith("file: "):
                path = line[len("file: ") :].strip()
            elif line.startswith("old: "):
                old = line[len("old: ") :]
                if path not in texts:
                    texts[path] = read(f"{folder}/{path}")
                was = old
                at = next((k for k, it in enumerate([old, *ways(old, words)]) if texts[path].count(it) == 1), None)
                if at is None:
                    left += 1
                    print(f"{edit}: {path}: not turned: {old}")
                    for it in ways(old, words):
                        print(f"    {it}")
                else:
                    old = [old, *ways(old, words)][at]
                    line = f"old: {old}"
            elif line.startswith("new:") and old is not None:
                new = line[len("new:") :].removeprefix(" ")
                # an old text that stands as it is, and a new one with a projection in the old form
                is_plain = not at and not re.search(r"\w \.\w", new)
                turned = named(new, words) if is_plain else list(ways(new, words))[at - 1 if at else 1]
                if at is not None:
                    line = f"new: {turned}" if turned or line != "new:" else line
                    texts[path] = texts[path].replace(old, turned)
                    if is_list and (old, turned) != (was, new):
                        print(f"{edit}: {path}\n    {was}\n    {old}\n    {new}\n    {turned}")
                old = None
            out.append(line)
        if not is_list and "\n".join(out) != read(edit):
            with open(edit, "w", encoding="utf-8") as it:
                it.write("\n".join(out))
    print(f"{left} left")


main()
