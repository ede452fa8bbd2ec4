#!/usr/bin/env python3
"""Turns Proof.antt files that name goals and steps as an older Rattle did to today's names.

usage: tools/turn_proofs.py NAMES [CRATE ..]      NAMES is what `rt names NAMES` wrote at the top of the repository

For each function it reads the old and new name of each place, step and goal, and rewrites proofs/F/Proof.antt in place. It proves nothing.
"""
import json
import os
import re
import sys

WORD = r"[^\s(){}.;,@\"«»\[\]\\`]+"


def plain(name):
    return re.sub(r"_lem$", "", name).replace("-", "").replace("_", "").lower()


class Names:
    def __init__(self, of):
        self.of = of
        self.places = {}
        self.fields = {}
        self.raw = {}
        self.arms = {}
        new_of = {}
        for at, (old, parent, (a, b), callee, extra) in enumerate(of["places"]):
            new = of["places_by_name"][at]
            self.places[plain(old)] = new
            new_of[old] = new
            arm = of["arms"][at]
            if a:
                self.fields.setdefault(plain(a), b)
                for x, y in extra:
                    self.raw[(plain(a), x)] = y
            if arm:
                group, _, items = arm
                for field, step, path in items:
                    self.arms.setdefault((plain(step), tuple(path)), f"{group}.{field}")
                    if step == "match" and not path:
                        key = re.search(r"(keys\d+|rest)$", self.root(of, at))
                        if key:
                            self.arms[("match", (key[0],))] = f"{group}.{field}.{key[0]}"
        self.needs = {}
        for old, new in of["needs"]:
            self.needs[plain(old)] = new
            # what the first scripts made of it
            for word in ("overflow_", "overflow-", "nonzero_", "offset_bounds-", "bounds-"):
                self.needs.setdefault(plain(word + old), new)
        self.loops = {plain(a): b for (a, b), _ in of["loops"]}
        for a, b in list(self.loops.items()):
            for word in ("invariant-", "decreases-"):
                self.places[plain(word + a)] = word + b
        self.missed = set()

    @staticmethod
    def root(of, at):
        """The old name of the place in which the arm of a place begins."""
        index = {it[0]: i for i, it in enumerate(of["places"])}
        while not of["places"][at][0].startswith("At-match-"):
            up = index.get(of["places"][at][1])
            if up is None or not of["arms"][up] or of["arms"][up][0] != of["arms"][at][0]:
                break
            at = up
        return of["places"][at][0]

    def tied(self, name):
        if name.startswith("Need-"):
            new = self.needs.get(plain(name[5:]))
            if new:
                return "Need-" + new
        new = self.places.get(plain(name))
        if new:
            return new
        if name not in ("close", "spec"):
            self.missed.add("tie." + name)
        return name

    def path(self, steps):
        """Turns what follows a variable: a list of fields."""
        out, i = [], 0
        while i < len(steps):
            s = steps[i]
            key = plain(s)
            rest = steps[i + 1 :]
            if s in ("before", "args", "ranges", "lifetimes", "well_formed", "now", "old", "0", "1", "2", "3") or (i and s == "new"):
                out.append(s)
                i += 1
                continue
            if i and not all(it == "before" for it in steps[:i]):
                out.append(s)
                i += 1
                continue
            if rest and (rest[0] == "given" or (key == "match" and re.match(r"keys\d+$|rest$", rest[0]))):
                for n in range(len(rest), -1, -1):
                    if (n or key != "match") and (key, tuple(rest[:n])) in self.arms:
                        out += self.arms[(key, tuple(rest[:n]))].split(".")
                        i += 1 + n
                        break
                else:
                    self.missed.add("." + s + "." + ".".join(rest))
                    out.append(self.fields.get(key, s))
                    i += 1
                continue
            if s == "pre":
                out.append("requires")
                i += 1
                continue
            if key in self.fields:
                out.append(self.fields[key])
                i += 1
                word = {"taken": "true", "left": "false"}.get(rest[0], rest[0]) if rest else ""
                if rest and (key, word) in self.raw:
                    out.append(self.raw[(key, word)])
                    i += 1
                elif word in ("true", "false"):
                    out.append(word)
                    i += 1
                continue
            out.append(s)
            i += 1
        return out


class Graph:
    """The places of a function, by their old and new depth."""

    def __init__(self, of):
        self.at = {plain(it[0]): i for i, it in enumerate(of["places"])}
        index = {it[0]: i for i, it in enumerate(of["places"])}
        self.parent = [index.get(it[1]) for it in of["places"]]
        self.arm = [it and it[0] for it in of["arms"]]
        self.need = {}
        for (old, new), (place, _) in zip(of["needs"], of["asked_at"]):
            for word in ("", "overflow_", "nonzero_", "offset_bounds-", "bounds-"):
                self.need.setdefault(plain(word + old), index.get(place))
        self.order = [index.get(place) for place, _ in of["asked_at"]]

    def above(self, i):
        """The place before it: the steps of an arm are one today."""
        if self.arm[i]:
            while self.parent[i] is not None and self.arm[self.parent[i]] == self.arm[i]:
                i = self.parent[i]
        return self.parent[i]

    def old_up(self, i, n):
        for _ in range(n):
            # an older graph had a few places more
            i = i if i is None or self.parent[i] is None else self.parent[i]
        return i

    def depth(self, i, to):
        """How many steps back from i to a place, today; None if it is no place of its own any more."""
        n = 0
        while i is not None:
            if i == to:
                return n
            i, n = self.above(i), n + 1
        return None

    def of_type(self, type_):
        m = re.match(r"\(?tie\.(" + WORD + ")", type_.strip())
        if not m:
            return None
        if m[1].startswith("Need-"):
            return self.need.get(plain(m[1][5:]))
        return self.at.get(plain(m[1]))


CHAIN = re.compile(rf"({WORD})((?:\.before)+)(?![\w'-])(?!\.)")


def split_arguments(text):
    """The arguments of a call, each whole."""
    out, depth, now = [], 0, ""
    for c in text:
        if c in "([{":
            depth += 1
        if c in ")]}":
            depth -= 1
        if c.isspace() and depth == 0:
            if now:
                out.append(now)
            now = ""
        else:
            now += c
    return out + ([now] if now else [])


def binders(type_):
    """The arguments of a signature by place: each a type, as far as they stand one after the other."""
    out, rest = [], type_.strip()
    while rest:
        if rest[0] in "({":
            depth, end = 0, 0
            for end, c in enumerate(rest):
                depth += (c in "({") - (c in ")}")
                if depth == 0:
                    break
            inside, brace, after = rest[1:end], rest[0], rest[end + 1 :].strip()
            m = re.match(r"([^:]*?) : (.*)", inside, re.S)
            if m:
                if brace == "(":
                    out += [m[2]] * len(m[1].split())
                rest = after.removeprefix("→").strip()
                continue
        if rest.startswith("tie.Need-"):
            out.append(rest)
            break
        depth, cut = 0, None
        for end, c in enumerate(rest):
            depth += (c in "({[") - (c in ")}]")
            if c == "→" and depth == 0:
                cut = end
                break
        if cut is None:
            break
        out.append(rest[:cut])
        rest = rest[cut + 1 :].strip()
    return out


def steps_back(body, env, graph):
    """Rewrites what goes back from a place and is no field: x.before.before."""

    def one(m):
        i = env.get(m[1])
        if i is None:
            return m[0]
        n = m[2].count(".before")
        to = graph.old_up(i, n)
        d = None if to is None else graph.depth(i, to)
        if d is None:
            return m[1]
        return m[1] + ".before" * d

    out, rest = "", body
    while True:
        m = re.search(rf"\blet ({WORD}) = ({WORD})((?:\.before)*) in(?![\w])", rest)
        if not m:
            return out + CHAIN.sub(one, rest)
        head = CHAIN.sub(one, rest[: m.start()])
        i = env.get(m[2])
        to = graph.old_up(i, m[3].count(".before")) if i is not None else None
        d = graph.depth(i, to) if to is not None else None
        if i is not None:
            # an inner place of an arm is the arm
            env = env | {m[1]: to if d is not None else i}
            out += head + f"let {m[1]} = {m[2]}{'.before' * (d or 0)} in"
        else:
            out += head + m[0]
        rest = rest[m.end() :]


def by_type(body, env, helpers, graph):
    """Where a lemma of the file takes a place, goes back as far as its type says."""
    roots = {}
    for m in re.finditer(rf"\blet ({WORD}) = ({WORD})((?:\.before)*) in\b", body):
        base = roots.get(m[2], m[2] if m[2] in env else None)
        if base:
            roots[m[1]] = base
    out, i = "", 0
    names = "|".join(sorted((re.escape(h) for h in helpers), key=len, reverse=True))
    if not names:
        return body
    call = re.compile(rf"(?<![^\s(\[,])({names})(?= )")
    while True:
        m = call.search(body, i)
        if not m:
            return out + body[i:]
        out += body[i : m.end()]
        i = m.end()
        for place in helpers[m[1]]:
            a = re.match(rf" ({WORD})((?:\.before)*)(?![\w'.-])", body[i:])
            if not a:
                break
            base = roots.get(a[1], a[1] if a[1] in env else None)
            if place is not None and base:
                d = graph.depth(env[base], place)
                if d is not None:
                    out += " " + base + ".before" * d
                    i += a.end()
                    continue
            out += a[0]
            i += a.end()


def helpers_of(text, graph):
    found = {}
    for block in blocks(text):
        m = re.match(r"(?:(?:pub|abbrev|unfoldable) )*(" + WORD + r") :(.*?)\n(?=(?:unfolding .*\n)?" + r"\1(?= |$))", block + "\n", re.S) if not block.startswith(("use ", "--")) else None
        if m:
            places = [graph.of_type(it) for it in binders(m[2])]
            while places and places[-1] is None:
                places.pop()
            if places and "tie.Need-" not in m[2]:
                found[m[1]] = places
    return found


def blocks(text):
    """The declarations of a file: lines from one at the margin to the next signature."""
    found, now = [], []
    for line in text.split("\n"):
        if re.match(r"(?:(?:pub|abbrev|unfoldable) )*" + WORD + " :", line) or line.startswith(("use ", "--")):
            found.append(now)
            now = []
        now.append(line)
    return ["\n".join(it) for it in [*found, now] if it]


def walk_back(text, graph):
    out = []
    helpers = helpers_of(text, graph)
    for block in blocks(text):
        m = re.match(r"(?:(?:pub|abbrev|unfoldable) )*(" + WORD + r") :(.*?)\n(?=(?:unfolding .*\n)?" + r"\1(?= |$))", block + "\n", re.S) if not block.startswith(("use ", "--")) else None
        if not m:
            out.append(block)
            continue
        name, type_ = m[1], m[2]
        args = binders(type_)
        body = (block + "\n")[m.end() :]
        clause = re.match(r"((?:unfolding [^\n]*\n)?)" + re.escape(name) + r"((?: [^=\n]*?)?) =(?=\s)", body)
        if not clause:
            out.append(block)
            continue
        head, rest = (block + "\n")[: m.end()] + clause[0], body[clause.end() :]
        params = [it for it in split_arguments(clause[2]) if not it.startswith("{")]
        env = {}
        for p, t in zip(params, args):
            i = graph.of_type(t)
            if i is not None:
                env[p] = i
        # the type may go back too
        names = {}
        for group in re.finditer(r"\(([^():]*) : (tie\.[^()]*)\)", type_):
            i = graph.of_type(group[2])
            for p in group[1].split():
                names[p] = i
        head = (block + "\n")[: m.end()].replace(type_, by_type(steps_back(type_, names, graph), {a: b for a, b in names.items() if b is not None}, helpers, graph), 1) + clause[0]
        at = rest.find("tie.spec")
        if at >= 0:
            inner = rest[at + len("tie.spec") :]
            depth, end = 0, len(inner)
            for k, c in enumerate(inner):
                depth += (c in "([{") - (c in ")]}")
                if depth < 0:
                    end = k
                    break
            items = split_arguments(inner[:end])
            loops = [it for it in items if it.startswith(("invariant-", "decreases-"))]
            goals = items[len(loops) :]
            turned_goals = []
            for k, item in enumerate(goals):
                lam = re.match(r"\(λ (" + WORD + r")((?: " + WORD + r")*)\. ?(.*)\)$", item, re.S)
                if lam and len(goals) == len(graph.order):
                    item = f"(λ {lam[1]}{lam[2]}. {by_type(steps_back(lam[3], {lam[1]: graph.order[k]}, graph), {lam[1]: graph.order[k]}, helpers, graph)})"
                turned_goals.append(item)
            if len(goals) != len(graph.order):
                MISMATCH.append((len(goals), len(graph.order)))
            rest = rest[: at + len("tie.spec")] + " " + " ".join(loops + turned_goals) + inner[end:]
            out.append(head + rest.rstrip("\n"))
            continue
        out.append(head + by_type(steps_back(rest, env, graph), env, helpers, graph).rstrip("\n") + ("\n" if block.endswith("\n") else ""))
    return "\n".join(out)


MISMATCH = []


def turned(text, names, function):
    text = walk_back(text, Graph(names.of))
    out = []
    for block in blocks(text):
        out.append(renamed(block, names))
    text = "\n".join(out)
    last = function.split(".")[-1]
    dashed = re.escape(last.replace("_", "-"))
    return re.sub(rf"(?<![^\s(])(?:{dashed}-spec|{re.escape(last)}-spec|{dashed}_spec)(?![\w'-])", last + "_spec", text)


def no_places(block):
    """Variables of a declaration that hold no place: what a field was taken of, and arguments of other types."""
    found = set()
    for m in re.finditer(rf"\blet ({WORD}) = {WORD}((?:\.{WORD})+) in\b", block):
        if any(it != "before" for it in m[2][1:].split(".")):
            found.add(m[1])
    for m in re.finditer(rf"\blet ({WORD}) = \([^=]*?\)((?:\.{WORD})+) in\b", block):
        found.add(m[1])
    for m in re.finditer(r"λ \((" + WORD + r") : [^λ]*?\)\.|λ (" + WORD + r"(?: " + WORD + r")*)\.", block):
        found.update({m[1]} if m[1] else set(m[2].split()) - ({"c"} if "tie.spec" in block else set()))
    m = re.match(r"(?:(?:pub|abbrev|unfoldable) )*(" + WORD + r") :(.*?)\n(?=(?:unfolding .*\n)?" + r"\1(?= |$))(?:unfolding .*\n)?\1((?: [^=\n]*?)?) =(?=\s)", block + "\n", re.S)
    if m:
        params = [it for it in split_arguments(m[3]) if not it.startswith("{")]
        for p, t in zip(params, binders(m[2])):
            if "tie." not in t:
                found.add(p)
        for group in re.finditer(r"\(([^():]*) : ([^()]*(?:\([^()]*\)[^()]*)*)\)", m[2]):
            if "tie." not in group[2]:
                found.update(group[1].split())
    return found


def renamed(block, names):
    out = []
    apart = no_places(block)
    for line in block.split("\n"):
        if line.startswith("use ") or line.lstrip().startswith("--"):
            out.append(line)
            continue

        def one(m):
            head, tail = m[1], m[2]
            if head in apart or head[0].isupper() or (head == ")" and not tail.startswith(".before")):
                return m[0]
            if head == "tie":
                first = tail[1:].split(".")
                return "tie." + ".".join([names.tied(first[0])] + first[1:])
            steps = tail[1:].split(".")
            k = 0
            while k < len(steps) and steps[k] == "before":
                k += 1
            if k < len(steps):
                # every place has the fields of those before it
                steps = steps[k:]
            return head + "." + ".".join(names.path(steps))

        line = re.sub(rf"({WORD}|\))((?:\.{WORD})+)", one, line)
        for old, new in names.of["args"]:
            a, b = (it.replace(" ", "") for it in (old, new))
            line = re.sub(re.escape(a) + r"(?![\w'-])", b, line)
            if a.startswith(".args."):
                # of what holds the arguments
                line = re.sub(r"(?<=[\w)'])" + re.escape(a[5:]) + r"(?![\w'-])", b[5:], line)
        line = re.sub(r"(?<=[\w)'])\.fits(?=\.)", ".ranges", line)
        line = re.sub(r"(?<=[\w)'])\.(?:good|well-formed)(?=\.\d)", ".well_formed", line)
        line = re.sub(r"simp length-map at (?:c|s)\.well_formed[.0-9]*", "search rules", line)
        line = re.sub(r"(?<=[\w)'])\.pre(?![\w'-])", ".requires", line)
        out.append(line)
    return "\n".join(out)


def main():
    top = sys.argv[1]
    crates = sys.argv[2:] or sorted(os.listdir("crates"))
    for crate in crates:
        listed = os.path.join(top, "crates", crate, "names.json")
        if not os.path.isfile(listed):
            print(f"{crate}: no names")
            continue
        with open(listed, encoding="utf-8") as it:
            every = json.load(it)
        for key, of in sorted(every.items()):
            m = re.match(rf"Rattle-{crate}-proofs\.(.*)\.Lts$", key)
            if not m:
                continue
            path = os.path.join("crates", crate, "proofs", *m[1].split("."), "Proof.antt")
            if not os.path.isfile(path):
                continue
            with open(path, encoding="utf-8") as it:
                text = it.read()
            names = Names(of)
            new = turned(text, names, m[1])
            with open(path, "w", encoding="utf-8") as it:
                it.write(new)
            if MISMATCH:
                print(f"{crate}::{m[1]}: {MISMATCH.pop()[0]} answers where {len(of['needs'])} are asked; settled: {' '.join(of['settled'])}")
            if names.missed:
                print(f"{crate}::{m[1]}: {' '.join(sorted(names.missed))}")


main()
