#!/usr/bin/env python3
"""Counts places in crates/*/src that a form of today's Rattle may serve better, by the points of docs/DESIGN-PASS.md.

    tools/places.py [TREE]         the counts of a tree, by default this one
    tools/places.py -l [TREE]      each place too

It goes by text, so that it finds what looks so. What is kept of it, and why, stands in docs/DESIGN-PASS.md.
"""
import collections
import pathlib
import re
import sys

args = [a for a in sys.argv[1:] if a != "-l"]
listed = "-l" in sys.argv[1:]
tree = pathlib.Path(args[0] if args else pathlib.Path(__file__).resolve().parent.parent)
found = collections.defaultdict(list)

FLAGS = (
    "ok|known|good|found|failed|enough|same|more|done|again|halted|code|refusal|answer|answered|flaw|fault|opened"
)


def code(text):
    """The text without comments, imports and tests; ends of lines stay."""
    text = re.sub(r"//[^\n]*", "", text)
    text = re.sub(r'"(\\.|[^"\\\n])*"', '""', text)
    text = re.sub(r"^ghost use [^;]*;", lambda m: "\n" * m.group().count("\n"), text, flags=re.M)
    return text.split("#[cfg(test)]")[0]


def block(text, at):
    """The end of the block in braces that begins at or after `at`."""
    depth = 0
    for i in range(text.index("{", at), len(text)):
        depth += {"{": 1, "}": -1}.get(text[i], 0)
        if depth == 0:
            return i + 1
    return len(text)


def functions(text):
    """Each function: where it begins, its name, parameters, result, clauses and body."""
    for m in re.finditer(r"\bfn (\w+)(<[^(]*>)?\(", text):
        depth, i = 1, m.end()
        while depth:
            depth += {"(": 1, ")": -1}.get(text[i], 0)
            i += 1
        parameters, at = text[m.end() : i - 1], i
        result = re.match(r"\s*->\s*([^\n{]*)", text[at:])
        clauses = []
        while True:
            clause = re.compile(r"\b(requires|ensures)\b[^{]*(?=\{)").search(text, at)
            brace = text.find("{", at)
            if brace < 0 or (";" in text[at:brace] and not clause):
                break
            if clause and clause.start() < brace + 1:
                end = block(text, clause.end())
                clauses.append((clause.group(1), " ".join(text[clause.end() : end].split())))
                at = end
                continue
            break
        if brace < 0:
            continue
        yield m.start(), m.group(1), parameters, (result.group(1).strip() if result else ""), clauses, text[brace : block(text, brace)]


def shape(body):
    """A body with its names, numbers and types of numbers taken away."""
    names = {}
    out = []
    for token in re.findall(r"[A-Za-z_]\w*|\d\w*|\S", body):
        if re.fullmatch(r"(u|i)(8|16|32|64|size)|\d\w*", token):
            token = "N"
        elif re.fullmatch(r"[A-Za-z_]\w*", token) and token not in ("if", "else", "while", "for", "let", "mut", "return", "match", "as"):
            token = names.setdefault(token, f"x{len(names)}")
        out.append(token)
    return " ".join(out)


shapes, pairs, facts = collections.defaultdict(list), collections.Counter(), collections.Counter()
for path in sorted(tree.glob("crates/*/src/**/*.rt")):
    text = code(path.read_text())
    name = str(path.relative_to(tree / "crates"))

    def put(point, at, what, name=name, text=text):
        found[point].append(f"{name}:{text.count(chr(10), 0, at) + 1}: {what}")

    # 1: own enums with a case that is no value, or a number for one; flags and refusal numbers beside values; numbers for kinds, refusals and none
    for m in re.finditer(r"\benum (\w+)", text):
        body = text[m.end() : block(text, m.end())]
        if re.search(r"\b(Refused|Bad|NoForm|Wrong\w+|NoBlock)\b", body):
            put("1a own enums of the shape of Option or Result", m.start(), m.group(1))
    for m in re.finditer(r"\bstruct (\w+)[^{;(]*\{", text):
        body = text[m.end() : block(text, m.end() - 1)]
        for f in re.finditer(rf"\b({FLAGS}): (bool|u8|u32|u64|isize|Answer)\b", body):
            put("1b flags and refusal numbers beside values in a struct", m.start(), f"{m.group(1)}.{f.group(1)}")
    for at, fn, parameters, result, clauses, body in functions(text):
        if result == "u32" and re.search(r"_code$|refusal|^judge|^first_of|^write$|^roster$|^number$|^unserved", fn):
            put("1c functions that answer a refusal's number, 0 for none", at, fn)
    for m in re.finditer(r"\bconst ([A-Z_]+): (u8|u32|u64) = \d+;", text):
        if re.search(
            r"^(SETTINGS|NO_GROUP|GROUP_NUMBER|AMOUNT|NO_ROOM|GROUP_IN_USE|NO_THREAD|ALREADY_ADMITTED|THREAD_RUNNING|NOT_BLOCKED|NOTHING_RUNNING"
            r"|BUSY|OVER_SLICE|REASON|METER_FULL|UNSOUND|UNKNOWN|HALTED|LENGTH|CHECK|FORM|ABSENT|QUESTION|ROW|COVER|OUTSIDE"
            r"|OPEN|CLOSE|ADMIT|REMOVE|WAKE|DISPATCH|REPORT|START|CHANGE|BEST_EFFORT|TICK|BLOCK|YIELD|EXIT|BLOCKED|RUNNABLE"
            r"|NONE|NOBODY|NEVER|SEVERAL|LAST)$",
            m.group(1),
        ):
            put("1d numbers for kinds, refusals, states and none", m.start(), m.group(1))

    # 3: loops by hand
    for m in re.finditer(r"\bwhile\b[^{]*\{", text):
        put("3 while loops", m.start(), " ".join(m.group().split()))

    # 4: equality, order, copying, conversion, printing and defaults by hand
    for at, fn, parameters, result, clauses, body in functions(text):
        if re.fullmatch(r"(comes_first|number|number_of|line_of|value_said|short|long|load|store|wide\w*|new|none|failed|unstarted|refused|none)", fn):
            put("4 equality, order, conversion and defaults by hand", at, fn)

    # 6: buffers with a length beside, in a struct or as parameters
    for m in re.finditer(r"\bstruct (\w+)[^{;(]*\{", text):
        body = text[m.end() : block(text, m.end() - 1)]
        if re.search(r": \[\w+(::\w+)*; ", body) and re.search(r"\b(count|used|got|len)\b: (usize|u32|u64)", body):
            put("6a a buffer and its length in a struct", m.start(), m.group(1))
    for at, fn, parameters, result, clauses, body in functions(text):
        if re.search(r": \[\w+(::\w+)*; \d+\]", parameters) and re.search(r"\b(n|count|most|len|before|place): (usize|u32)", parameters):
            put("6b a buffer and its length as parameters", at, fn)

    # 7: a match whose arms call different steps
    for m in re.finditer(r"\bmatch\b[^{]*\{", text):
        body = text[m.end() : block(text, m.end() - 1)]
        if len(re.findall(r"=> (?:\w+ = )?\w+\.\w+\(", body)) >= 3:
            put("7 switches on which step to run", m.start(), " ".join(m.group().split()))

    for at, fn, parameters, result, clauses, body in functions(text):
        if len(body.split()) > 2:
            shapes[shape(body)].append(f"{name}: {fn}")
        named = sorted({" ".join(p.split()) for p in parameters.split(",") if ":" in p and "self" not in p})
        for i, a in enumerate(named):
            for b in named[i + 1 :]:
                pairs[(name.split("/")[0], a, b)] += 1
        for fact in {c for k, c in clauses if k == "requires"}:
            facts[(name.split("/")[0], fact)] += 1

for group in shapes.values():
    for one in group[1:]:
        found["2 functions of the shape of another"].append(f"{one} (as {group[0]})")
for (of, a, b), n in sorted(pairs.items()):
    if n >= 3:
        found["5a parameters that travel together in three functions or more"].append(f"{of}: {a}, {b} ({n})")
for (of, fact), n in sorted(facts.items()):
    if n >= 3:
        found["5b the same fact required by three functions or more"].append(f"{of}: {fact} ({n})")

# 8: answers that name only what the check tries by itself
for path in sorted(tree.glob("crates/*/proofs/**/Answers.antt")):
    for m in re.finditer(r"^(\S+) c =\s+(search rules|omega arith|grind arith)$", path.read_text(), re.M):
        found["8 answers by a bare tactic"].append(f"{path.relative_to(tree / 'crates')}: {m.group(1)}")

for point in sorted(found):
    print(f"{len(found[point]):4}  {point}")
    if listed:
        for place in found[point]:
            print(f"          {place}")
