#!/usr/bin/env python3
"""Turns proofs by hand of the older form (proofs/F/Proof.antt, closed by `tie.close (tie.spec ..)`) into Invariants.antt and Answers.antt.

usage: to_answers.py CRATE [FOLDER..]    in a checkout whose lower crates are proved; FOLDER is below proofs/, none: all that are of the form

`rt check --generated DIR --old-names` in the crate says which old name of a step, a place or a need has which new one. What a path says of
the places on the way (`.before`) goes, since a step is a field of `c` now; a place that is passed on whole becomes `(goal.at.NEED c).PLACE`.
The old file goes to /tmp/old-proofs/CRATE. What it can't turn stands in the answers as it was, for the check to name.
"""
import glob
import json
import os
import re
import shutil
import subprocess
import sys
import tempfile

HERE = os.path.dirname(os.path.realpath(__file__))
ROOT = os.path.dirname(HERE)
KEEP = "/opt/rattle/port/notes/2026-11-18-source-names-keep-their-spelling/keep_names.py"
W = r"[^\s(){}.;,@\"«»\[\]\\λ]+"
PATH = re.compile(rf"{W}(?:\.{W})*")
SIGNATURE = re.compile(rf"^((?:abbrev |unfoldable )?(?:pub )?)({W}) :(.*)$", re.S)


def blocks(text):
    """The definitions at the margin, each with the comment above it, and the rest (imports, module blocks)."""
    out, cur = [], []
    for line in text.split("\n"):
        at_margin = line and not line[0].isspace()
        if at_margin and not line.startswith("--"):
            name = re.match(rf"(?:abbrev |unfoldable )?(?:pub )?({W})", line)
            same = cur and cur_name == (name and name[1]) and not SIGNATURE.match(line)
            if line.startswith("unfolding") and cur:
                same = True
            if not same:
                comment = []
                while cur and (cur[-1].startswith("--") or not cur[-1].strip()):
                    comment.insert(0, cur.pop())
                if cur:
                    out.append("\n".join(cur))
                cur = comment
                cur_name = name and name[1]
        elif not cur:
            cur_name = None
        cur.append(line)
    if cur:
        out.append("\n".join(cur))
    return out


def chains(text, helpers):
    """A function that only goes back some places is written out."""
    for name, chain in helpers:
        text = re.sub(rf"\((?<![\w-]){re.escape(name)} ({W}(?:\.{W})*)\)", lambda m: m[1] + chain, text)
        text = re.sub(rf"(?<![\w.-]){re.escape(name)} ({W}(?:\.{W})*)", lambda m: m[1] + chain, text)
    return text


def lent(callee):
    """The `&mut` parameters of a function of the repository, in order."""
    parts = callee.split("::")
    for path in sorted(glob.glob(f"crates/{parts[0]}/src/**/*.rt", recursive=True)):
        m = re.search(rf"\bfn {re.escape(parts[-1])}(?:<[^>]*>)?\(([^{{]*?)\)\s*(?:->|requires|ensures|\{{)", open(path, encoding="utf-8").read(), re.S)
        if m:
            return ["self" if p.strip() == "&mut self" else p.split(":")[0].strip() for p in m[1].split(",") if re.match(r"\s*(&mut self|\w+: &mut )", p)]
    return []


class Function:
    def __init__(self, names):
        self.parent = {p[0]: p[1] for p in names["places"]}
        self.step = {}
        for p in names["places"]:
            old, new = p[2]
            if old:
                self.step[old] = new
        self.place = {}
        for (old, *_), new in zip(names["places"], names["places_by_name"]):
            self.place[old] = new
        self.args = {}
        for old, new in names["args"]:
            self.args[tuple(old.strip(".").replace(" ", "").split("."))] = new.strip(".").replace(" ", "").split(".")
        self.needs, self.at = {}, {}
        for (old, new), asked in zip(names["needs"], names["asked_at"]):
            self.needs[old] = new
            self.at[new] = asked[0]
        self.loops = []
        for (pair, params), changed in zip(names["loops"], names["changed"]):
            self.loops.append((pair[0], pair[1], params, changed))
        self.clauses = {}
        for p, c in zip(names["places"], names["clauses"]):
            if c and c.get("fields") and p[2][1]:
                self.clauses[p[2][1]] = c["fields"]
        self.asked = names.get("asked") or {}
        self.lent = {p[2][1]: lent(p[3]) for p in names["places"] if p[2][1] and len(p) > 3 and p[3]}

    def need(self, old):
        forms = [old, re.sub(r"^overflow_(add|sub|mul|shl|shr|cast|step)-", r"\1-", old), re.sub(r"^nonzero_(div|rem)-", r"\1-", old)]
        forms += [f.replace("array_", "array-") for f in forms] + [f.replace("slice_", "slice-") for f in forms]
        forms += [f.replace("_", "-") for f in forms]
        for f in forms:
            if f in self.needs:
                return self.needs[f]
        for o, n in self.needs.items():
            if n == old:
                return n
        return None

    def fields(self, segments):
        """Fields behind a place: the step's new name, the argument's new name."""
        s = list(segments)
        if s and s[0] in ("args", "ranges") and len(s) > 1 and (s[0], s[1]) in self.args:
            s[:2] = self.args[(s[0], s[1])]
        elif s and s[0] in self.step:
            s[0] = self.step[s[0]]
        elif s and s[0].replace("Before", "before") in self.step:
            s[0] = self.step[s[0].replace("Before", "before")]
        if len(s) > 1 and s[1] == "inv":
            s[1] = "invariant"
        return s

    def late(self, text):
        """Names of clauses in place of numbers, behind a step or a name for one."""
        text = re.sub(r"\.inv(?=[.\s(),])", ".invariant", text)
        alias = dict(re.findall(rf"\blet ({W}) = c\.({W}) in", text))

        def one(m):
            segs = m[0].split(".")
            if "ensures" in segs:
                at = segs.index("ensures")
                step = segs[at - 1]
                step = alias.get(step, step) if at == 1 else step
                fields = self.clauses.get(step)
                if fields and len(fields) > 1:
                    i, n = at + 1, 0
                    while i < len(segs) and segs[i] == "1" and n < len(fields) - 1:
                        n += 1
                        i += 1
                    if i < len(segs) and segs[i] == "0" and n < len(fields) - 1:
                        i += 1
                    elif i < len(segs) and segs[i].isdigit() and n == 0:
                        n = int(segs[i])
                        i += 1
                    if i > at + 1 and n < len(fields):
                        segs[at + 1 : i] = [fields[n]]
            if "new" in segs:
                at = segs.index("new")
                step = segs[at - 1]
                step = alias.get(step, step) if at == 1 else step
                mine = self.lent.get(step) or []
                if at + 1 < len(segs) and segs[at + 1].isdigit() and int(segs[at + 1]) < len(mine):
                    segs[at + 1] = mine[int(segs[at + 1])]
                elif len(mine) == 1 and (at + 1 == len(segs) or segs[at + 1] not in mine):
                    segs[at + 1 : at + 1] = mine
            return ".".join(segs)

        return PATH.sub(one, text)

    def record(self, need, old, body):
        fields = self.asked.get(need) or self.asked.get(old)
        if not fields or len(fields) < 2:
            return body
        t = body.rstrip()
        if not t.endswith(")"):
            return body
        depth, i = 0, len(t) - 1
        while i >= 0:
            if t[i] == ")":
                depth += 1
            elif t[i] == "(":
                depth -= 1
                if depth == 0:
                    break
            i -= 1
        before = t[:i].rstrip()
        if before and not re.search(r"(?:\bin|=)$", before):
            return body

        def parts(inner):
            out, d, cur = [], 0, ""
            for ch in inner:
                if ch in "([{":
                    d += 1
                elif ch in ")]}":
                    d -= 1
                if ch == "," and d == 0:
                    out.append(cur.strip())
                    cur = ""
                else:
                    cur += ch
            if cur.strip():
                out.append(cur.strip())
            return out

        ps = parts(t[i + 1 : -1])
        while len(ps) < len(fields) and ps[-1].startswith("(") and ps[-1].endswith(")"):
            ps[-1:] = parts(ps[-1][1:-1])
        if len(ps) != len(fields):
            return body
        return before + " record {\n      " + "\n      ".join(f"{f} = {p};" for f, p in zip(fields, ps)) + "\n    }\n"

    def body(self, text, env, need, helpers, whole):
        """env: variable -> old place."""
        used = set()
        aliases = {m[1] for m in re.finditer(rf"\blet ({W}) = [^=]*?\.args in", text)}
        olds = {k[1]: v[1] for k, v in self.args.items() if k[0] == "args" and len(k) == 2 and len(v) == 2}

        def one(m):
            word = m[0]
            segs = word.split(".")
            if segs[0] in aliases and len(segs) > 1 and segs[1] in olds:
                return ".".join([segs[0], olds[segs[1]]] + segs[2:])
            if segs[0] not in env:
                if word.startswith("tie."):
                    return word[4:] if word[4:] not in self.place else self.place[word[4:]]
                for i in range(1, len(segs) - 1):
                    if (segs[i], segs[i + 1]) in self.args:
                        segs[i : i + 2] = self.args[(segs[i], segs[i + 1])]
                return ".".join(segs)
            place = env[segs[0]]
            i = 1
            while i < len(segs) and segs[i] == "before":
                place = self.parent.get(place) or place
                i += 1
            rest = segs[i:]
            if not rest:
                if not whole:
                    return word
                if i == 1:
                    return word
                used.add(place)
                if need:
                    return f"(goal.at.{need} c).{self.place.get(place, place)}"
                return word
            return ".".join([segs[0]] + self.fields(rest))

        return PATH.sub(one, text), used


def params(equation, name):
    m = re.match(rf"{re.escape(name)}((?: {W})*?) =(?=\s)(.*)$", equation, re.S)
    return (m[1].split(), m[2]) if m else (None, None)


def convert(crate, folder, names):
    path = f"crates/{crate}/proofs/{folder}/Proof.antt"
    text = open(path, encoding="utf-8").read()
    f = Function(names)
    head, invariants, answers, other = [], [], [], []
    helpers = []
    imports = []
    items = blocks(text)
    top = ""
    if items and items[0].startswith("--"):
        m = re.match(r"((?:--[^\n]*\n)+)", items[0])
        top = m[1] if m else ""
        items[0] = items[0][len(top):]
    lets = re.compile(rf"\blet ({W}) (?:: [^=]*? )?= ((?:\w+ )?\(?{W}(?:\.{W})*\)?) in")
    for it in items:
        core = re.sub(r"^(?:\s*--[^\n]*\n|\s*\n)*", "", it)
        comment = it[: len(it) - len(core)]
        if core.startswith("use "):
            for line in core.split("\n"):
                if line.startswith("use ") and ".Statement." not in line and not re.search(r"\.Tie\b", line):
                    imports.append(line)
            continue
        if re.search(r"tie\.close", core):
            continue
        first = SIGNATURE.match(core)
        if not first:
            other.append((comment, core))
            continue
        name = first[2]
        lines = core.split("\n")
        k = next((i for i, l in enumerate(lines) if i and re.match(rf"{re.escape(name)}(?: {W})* =(\s|$)", l)), None)
        sig = "\n".join(lines[:k]) if k else core
        eq = "\n".join(lines[k:]).rstrip() if k else ""
        unfolding = "\n".join(l for l in lines[1:k or 1] if l.startswith("unfolding"))
        kind = re.search(r": tie\.((?:Need-)?[^\s]+)", sig)
        tie = kind[1] if kind and re.match(r"^((?:abbrev |unfoldable )?(?:pub )?)%s : tie\." % re.escape(name), sig) else None
        if tie and re.match(r"(invariant|decreases)-", tie) or (tie and re.match(r"(InvT|MeasureT)-", tie)):
            which, loop = re.match(r"(invariant|decreases|InvT|MeasureT)-(.*)", tie).groups()
            which = {"InvT": "invariant", "MeasureT": "decreases"}.get(which, which)
            for old, new, ps, changed in f.loops:
                if old == loop:
                    break
            else:
                other.append((comment, core))
                continue
            have, body = params(eq, name)
            if have is None:
                other.append((comment, core))
                continue
            want = [f"l.initial.{p}" if c else f"l.{p}" for p, c in zip(ps, changed)] + [f"l.{p}" for p, c in zip(ps, changed) if c]
            sub = dict(zip(have, want))
            note = "" if len(have) == len(want) else f"-- LOOK: {have} against {want}\n"

            def one(m):
                s = m[0].split(".")
                return ".".join([sub.get(s[0], s[0])] + s[1:])

            body = PATH.sub(one, body)
            invariants.append(f"{note}{comment.strip(chr(10)) + chr(10) if comment.strip() else ''}abbrev pub {which}-{new} : goal.{which}-{new}\n{unfolding + chr(10) if unfolding else ''}{which}-{new} l ={body}\n")
            continue
        if tie and tie.startswith("Need-"):
            new = f.need(tie[5:].split(" ")[0])
            have, body = params(eq, name)
            if body is not None and body.strip() in ("search rules", "search (rules)"):
                continue
            if new is None or have is None:
                other.append((f"-- LOOK: need {tie}\n", core))
                continue
            env = {have[0]: f.at[new]} if have else {}
            body = chains(body, helpers)
            # variables for places
            while True:
                found = False
                for m in lets.finditer(body):
                    expr = m[2].strip("()")
                    segs = expr.split(".")
                    if m[1] not in env and segs[0] in env and all(s == "before" for s in segs[1:]):
                        place = env[segs[0]]
                        for s in segs[1:]:
                            place = f.parent.get(place) or place
                        env[m[1]] = place
                        found = True
                if not found:
                    break
            for v in [v for v in env if v != (have[0] if have else "c")]:
                bare = [m for m in re.finditer(rf"(?<![\w.-]){re.escape(v)}(?![\w.'-])", body)]
                if len(bare) == 1:
                    body = re.sub(rf"\blet {re.escape(v)} (: [^=]*? )?= \(?{W}(?:\.{W})*\)? in", f"let {v} = {have[0]} in", body, count=1)
                    env[v] = f.at[new]
            body, _ = f.body(body, env, new, [], True)
            if have and have[0] != "c":
                body = PATH.sub(lambda m: ".".join(["c"] + m[0].split(".")[1:]) if m[0].split(".")[0] == have[0] else m[0], body)
            body = f.record(new, tie[5:], f.late(body))
            answers.append((new, f"{comment.strip(chr(10)) + chr(10) if comment.strip() else ''}pub {new} : goal.{new}\n{unfolding + chr(10) if unfolding else ''}{new} c ={body}\n"))
            continue
        if re.search(r"→ tie\.", sig) and "abbrev" in first[1]:
            chain = re.search(rf"= {W}?((?:\.before)+)\s*$", eq)
            helpers.append((name, chain[1] if chain else ""))
            continue
        other.append((comment, core))
    loop_args = r"(?: (?:invariant|decreases)-[^\s)]+)*"
    extra = []
    goals = set()
    for comment, core in other:
        core = chains(core, helpers)
        env = {}
        for m in re.finditer(rf"\(({W}) : tie\.({W}){loop_args}\)", core):
            if m[2] in f.place:
                env[m[1]] = m[2]
                goals.add(f.place[m[2]])
        core = re.sub(rf"tie\.({W}){loop_args}", lambda m: f.place.get(m[1], "tie." + m[1]), core)
        core, _ = f.body(core, env, None, [], False)
        core = f.late(core)
        extra.append(comment + core.rstrip("\n") + "\n")
    folder_path = f"crates/{crate}/proofs/{folder}"
    base = f"Rattle.{crate}.proofs." + ".".join(folder.split("/"))
    if invariants:
        with open(f"{folder_path}/Invariants.antt", "w", encoding="utf-8") as out:
            out.write("\n".join(imports) + f"\nuse {base}.Given as goal\n\n" + "\n".join(invariants))
    with open(f"{folder_path}/Answers.antt", "w", encoding="utf-8") as out:
        out.write(top + "\n".join(imports) + f"\nuse {base}.Goals as goal\n")
        if goals:
            out.write(f"use {base}.Goals.{{{', '.join(sorted(goals))}}}\n")
        out.write("\n" + "\n".join(extra) + ("\n" if extra else "") + "\n".join(a for _, a in answers))
    kept = f"/tmp/old-proofs/{crate}/{folder}"
    os.makedirs(kept, exist_ok=True)
    shutil.move(path, f"{kept}/Proof.antt")


def main():
    if len(sys.argv) < 2:
        sys.exit(__doc__)
    crate, only = sys.argv[1], sys.argv[2:]
    os.chdir(os.getcwd() if os.path.exists("crates.txt") else ROOT)
    into = tempfile.mkdtemp(prefix="names-")
    where = f"crates/{crate}"
    said = subprocess.run(["rt", "check", "--generated", into, "--old-names"], cwd=where, capture_output=True, text=True)
    lists = glob.glob(f"{into}/names.json")
    if not lists:
        sys.exit("no names: " + (said.stdout + said.stderr)[-2000:])
    subprocess.run([sys.executable, KEEP, lists[0], "."], cwd=where, capture_output=True)
    names = json.load(open(lists[0]))
    if os.environ.get("NAMES_ONLY"):
        print(lists[0])
        return
    for path in sorted(glob.glob(f"{where}/proofs/**/Proof.antt", recursive=True)):
        folder = os.path.relpath(os.path.dirname(path), f"{where}/proofs")
        if only and folder not in only:
            continue
        if "tie.close" not in open(path, encoding="utf-8").read():
            print("left, since it is a walk:", folder)
            continue
        key = f"Rattle-{crate}-proofs." + ".".join(folder.split("/")) + ".Lts"
        if key not in names:
            print("no names for", folder)
            continue
        try:
            convert(crate, folder, names[key])
            print("turned:", folder)
        except Exception as e:
            print("left:", folder, repr(e))


main()
