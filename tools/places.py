#!/usr/bin/env python3
"""Lists the places in crates/*/src and crates/*/proofs that may read like an older language, and counts them.

usage: python3 tools/places.py [POINT ..] [--count]

POINT is 1 to 8, as in docs/DESIGN-PASS.md; none stands for all. A place is a line 'POINT crate/file:line what'.
Tests (tests.rt and test modules) count too.
"""
import collections
import pathlib
import re
import sys

ROOT = pathlib.Path(__file__).resolve().parent.parent / "crates"


def sources():
    for path in sorted(ROOT.glob("*/src/*.rt")):
        yield path, path.read_text()


def where(path, text, at):
    return f"{path.relative_to(ROOT)}:{text.count(chr(10), 0, at) + 1}"


def blank(text):
    """The text without comments, of the same length."""
    return re.sub(r"//[^\n]*", lambda m: " " * len(m.group()), text)


def functions(text):
    """(start, name, parameters, clauses, body) of each function with a body."""
    for m in re.finditer(r"\bfn (\w+)", text):
        depth, i, end = 0, m.end(), len(text)
        while i < end and text[i] not in "(":
            i += 1
        start = i
        while i < end:
            depth += text[i] in "("
            depth -= text[i] in ")"
            i += 1
            if depth == 0:
                break
        parameters = text[start + 1:i - 1]
        # The body begins at the '{' that no clause owns.
        clauses = []
        while i < end:
            c = re.compile(r"\s*(->[^{;]*?(?=\s*(?:requires|ensures|where|\{|;)))?\s*").match(text, i)
            i = c.end()
            k = re.compile(r"(requires|ensures)\*?\s*(\w+\s*)?\{").match(text, i)
            if not k:
                break
            depth, j = 1, k.end()
            while depth:
                depth += text[j] == "{"
                depth -= text[j] == "}"
                j += 1
            clauses.append((k.group(1), " ".join(text[k.end():j - 1].split())))
            i = j
        if i >= end or text[i] != "{":
            continue
        depth, j = 1, i + 1
        while depth:
            depth += text[j] == "{"
            depth -= text[j] == "}"
            j += 1
        yield m.start(), m.group(1), parameters, clauses, text[i + 1:j - 1]


def shape(body):
    """A body with its names and numbers blotted out."""
    return " ".join(re.sub(r"\b(?!let|mut|if|else|match|for|in|return|self|Ok|Err|Some|None)\w+\b", "x", body).split())


def point_1():
    for path, text in sources():
        text = blank(text)
        for m in re.finditer(r"enum (\w+)[^{]*\{(.*?)\n\}", text, re.S):
            variants = re.findall(r"^    (\w+)(\(|\s*\{|,| =)", m.group(2), re.M)
            if len(variants) == 2 and any(v[1].strip() in "({" and v[1].strip() for v in variants):
                yield where(path, text, m.start()), f"enum {m.group(1)}: two variants, one with a value"
        for m in re.finditer(r"(?:Err\(\w+\)|None) => (?:None|Err\(|return (?:Err\(|Ok\())|Some\((\w+)\) => Ok\(\1\)|Ok\((\w+)\) => (?:Ok\(\2\)|Some\(\2\)|\2\b)", text):
            yield where(path, text, m.start()), "passes on: " + m.group().strip()
        for m in re.finditer(r"\.is_(?:some|ok|none|err)\(\)\s*\{", text):
            yield where(path, text, m.start()), "asks " + m.group().strip(" {")
        for m in re.finditer(r"match [^{}]*\{\s*(?:Some|Ok)\(_\) => (?:true|false)", text):
            yield where(path, text, m.start()), "matches for a bool"
        for m in re.finditer(r"fn \w+\(&?self\) -> u8\b", text):
            yield where(path, text, m.start()), "number for a kind: " + " ".join(m.group().split())
        for m in re.finditer(r"^    (?:pub(?:\(crate\))? )?(\w+): bool,", text, re.M):
            yield where(path, text, m.start()), f"flag {m.group(1)}"


def point_2():
    bodies = collections.defaultdict(list)
    contracts = collections.defaultdict(list)
    for path, text in sources():
        if path.name == "tests.rt":
            continue
        text = blank(text)
        for start, name, parameters, clauses, body in functions(text):
            if len(shape(body)) > 24:
                bodies[shape(body)].append((where(path, text, start), name))
            ensures = tuple(sorted(c for k, c in clauses if k == "ensures"))
            if ensures:
                contracts[(path, ensures)].append((where(path, text, start), name))
    for group in bodies.values():
        if len(group) > 1:
            names = ", ".join(n for _, n in group)
            for at, name in group:
                yield at, f"same body but for names: {names}"
    for group in contracts.values():
        if len(group) > 1:
            for at, name in group:
                yield at, "same contract: " + ", ".join(n for _, n in group)


def point_3():
    for path, text in sources():
        text = blank(text)
        for m in re.finditer(r"\bwhile\b|\bloop\b|\bfor (\w+) in ([^{]*?\.\.[^{\]]*)\{", text):
            yield where(path, text, m.start()), " ".join(m.group().split())
        for m in re.finditer(r"( *)\bfor \((\w+), \w+\) in ([^{]*enumerate\(\)[^{]*)\{(.*?)\n\1\}", text, re.S):
            if re.search(rf"\[[^\]]*\b{m.group(2)}\b", m.group(4)):
                yield where(path, text, m.start()), "index of an element used as one: " + " ".join(m.group(3).split())
        for m in re.finditer(r"( *)\bfor (\w+) in ([^{]*)\{(.*?)\n\1\}", text, re.S):
            if re.search(r"return (?:true|false|Some|None|Err)", m.group(4)) or re.search(r"(\w+) = \1[ .]", m.group(4)):
                yield where(path, text, m.start()), "search or sum: for " + m.group(2) + " in " + " ".join(m.group(3).split())
        for m in re.finditer(r"( *)\bfor \(\w+, \w+\) in ([^{]*)\{(.*?)\n\1\}", text, re.S):
            if re.search(r"return (?:true|false|Some|None|Err)", m.group(3)):
                yield where(path, text, m.start()), "search: for in " + " ".join(m.group(2).split())


def point_4():
    for path, text in sources():
        text = blank(text)
        for m in re.finditer(r"fn ((?:eq|ne|cmp|clone|same|equal|number|digits|octets|answer_code|of_count|read|recordable|reception|refused_\w+|clock_fault|judge_fault|into_\w+|to_\w+|from_\w+))\((?!\w+: &(?:mut )?\[u\d+\], )", text):
            yield where(path, text, m.start()), "by hand: fn " + m.group(1)
        for m in re.finditer(r"impl[^{\n]* (From|TryFrom|Display|PartialEq|Ord|PartialOrd|Clone)\b[^{\n]*", text):
            yield where(path, text, m.start()), " ".join(m.group().split())


def point_5():
    facts = collections.defaultdict(set)
    parameters_of = []
    for path, text in sources():
        text = blank(text)
        crate = path.relative_to(ROOT).parts[0]
        for start, name, parameters, clauses, body in functions(text):
            at = where(path, text, start)
            for kind, clause in clauses:
                if re.search(r"[≤<≢]|→|^length|≡ (?:self|length|true)", clause):
                    facts[(crate, clause.replace(".old", ".now").replace(".new", ".now"))].add((at, name))
            names = frozenset(" ".join(p.split()) for p in re.findall(r"(\w+: [^,]+)", parameters))
            parameters_of.append((crate, at, name, names))
    for (crate, fact), places in sorted(facts.items()):
        if len(places) >= 3:
            for at, name in sorted(places):
                yield at, f"fact of {len(places)} functions: {fact[:70]}"
    groups = {}
    for crate, _, _, names in parameters_of:
        for other, _, _, more in parameters_of:
            both = names & more
            if crate == other and len(both) >= 2:
                groups[crate, both] = [name for c, _, name, all_names in parameters_of if c == crate and both <= all_names]
    groups = {k: v for k, v in groups.items() if len(v) >= 3}
    for (crate, group), names in sorted(groups.items(), key=lambda g: (g[0][0], sorted(g[0][1]))):
        if not any(c == crate and group < other for c, other in groups):
            yield f"{crate}/src", f"together in {len(names)} ({', '.join(names)}): {', '.join(sorted(group))}"


def point_6():
    for path, text in sources():
        text = blank(text)
        for m in re.finditer(r"struct (\w+)[^{;]*\{(.*?)\n\}", text, re.S):
            if re.search(r": \[[^\]]*; ?\w+\]", m.group(2)) and re.search(r"\w+: (?:usize|State),", m.group(2)):
                yield where(path, text, m.start()), f"struct {m.group(1)}: an array, and how much of it is used"
        for m in re.finditer(r"enum (\w+)[^{]*\{[^}]*length: usize", text):
            yield where(path, text, m.start()), f"enum {m.group(1)}: a length of a buffer elsewhere"
        for m in re.finditer(r"struct (\w+)[^{]*\{[^}]*\n    (?:pub(?:\(crate\))? )?length: usize,(?![^}]*\[)", text):
            yield where(path, text, m.start()), f"struct {m.group(1)}: a length of a buffer elsewhere"
        for m in re.finditer(r"^        \d+ => Some\(0\),", text, re.M):
            yield where(path, text, m.start()), "sorted list searched by a match"
        for m in re.finditer(r"fn \w+[^{;]*\b(?:buffer|octets): &(?:mut )?\[[^\]]*\],\s*(?:start|length|end): usize|fn \w+\([^)]*&\[u8; \d+\], length: usize", text):
            yield where(path, text, m.start()), "a slice and how much of it: " + " ".join(m.group().split())[:40]


def point_7():
    for path, text in sources():
        text = blank(text)
        for m in re.finditer(r"\[\s*fn\b|: fn\(|\bdyn\b|match (?:self\.)?(?:step|phase|kind|turn)\b", text):
            yield where(path, text, m.start()), m.group()


def point_8():
    for path in sorted(ROOT.glob("*/proofs/**/*.antt")):
        text = path.read_text()
        if path.name in ("Answers.antt", "Invariants.antt", "Proof.antt"):
            for m in re.finditer(r"^pub ([\w\-']+) : ", text, re.M):
                yield where(path, text, m.start()), "answer " + m.group(1)
        elif path.name != "Lib.antt":
            for m in re.finditer(r"^(?:pub |abbrev pub |abbrev )?([\w\-']+) : ", text, re.M):
                yield where(path, text, m.start()), "lemma " + m.group(1)


POINTS = {"1": point_1, "2": point_2, "3": point_3, "4": point_4, "5": point_5, "6": point_6, "7": point_7, "8": point_8}


def main(words):
    asked = [w for w in words if w in POINTS] or list(POINTS)
    for point in asked:
        found = list(dict.fromkeys(POINTS[point]()))
        if point not in "58":
            # A place that two patterns find is one place.
            found = list({at: (at, what) for at, what in reversed(found)}.values())[::-1]
        if "--count" not in words:
            for at, what in found:
                print(f"{point} {at} {what}")
        crates = collections.Counter(at.split("/")[0] for at, _ in found)
        print(f"{point} in all {len(found)}:", ", ".join(f"{c} {n}" for c, n in sorted(crates.items())))


main(sys.argv[1:])
