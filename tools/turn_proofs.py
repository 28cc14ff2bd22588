#!/usr/bin/env python3
"""Turns the proofs/**/Proof.antt of one crate to the names that this Rattle makes, after port.py and respell_names.py.

usage: python3 tools/turn_proofs.py crates/NAME      once for a crate, lowest crates first

`rt check --generated DIR --old-names` tells each old name of a goal, a step, a place and a loop with its new one. A path c.before.before.STEP becomes
c.NEW_STEP, since a record shows the fields of those before it; a goal's answer takes the goal's new name, and the answers stand in the order of the
goals. What it could not turn is printed.
"""
import json
import os
import re
import subprocess
import sys
import tempfile

IDENT = r"[^\s(){}\[\],;.:\"@|=]+"
START = r"(?<![\w.'₀₁₂₃₄₅₆₇₈₉′-])"


def norm(s):
    return s.replace("_", "-").lower()


def blocks(text):
    """The top-level items of a file, each with its comment lines before it."""
    out, now = [], []
    for line in text.split("\n"):
        if line and not line[0].isspace() and now and not now[-1].startswith("--"):
            m = re.match(rf"({IDENT})", line)
            name = m.group(1) if m else ""
            same = any(re.match(rf"(?:(?:abbrev|pub|unfoldable) )*{re.escape(name)}(?=\s|$)", l) for l in now) and not line.startswith(("use ", "abbrev", "pub", "--"))
            if not same and not line.startswith("unfolding"):
                out.append("\n".join(now))
                now = []
        now.append(line)
    out.append("\n".join(now))
    return out


def binders(sig):
    """The explicit binders of a signature in order, each with its type."""
    got, parts, depth, start = [], [], 0, 0
    for i, ch in enumerate(sig):
        if ch in "({":
            depth += 1
        elif ch in ")}":
            depth -= 1
        elif ch == "→" and depth == 0:
            parts.append(sig[start:i])
            start = i + 1
    for p in parts:
        p = p.strip()
        if p.startswith(("(", "{")) and " : " in p:
            for m in re.finditer(r"([({])([^(){}]*?) : ((?:[^(){}]|\([^()]*\))*)[)}]", p):
                if m.group(1) == "(":
                    got += [(n, m.group(3).strip()) for n in m.group(2).split()]
        else:
            got.append((None, p))
    return got


class Names:
    def __init__(self, entry):
        self.needs = entry["needs"]
        self.steps, self.callee = {}, {}
        self.places, self.parent = {}, {}
        by_old = {}
        for i, (place, new) in enumerate(zip(entry["places"], entry["places_by_name"])):
            self.places[norm(place[0])] = new
            by_old[place[0]] = new
            # an arm stands for several places of old
            above = place[1]
            for _ in range(entry["arms"][i][1] - 1 if entry["arms"][i] else 0):
                above = next(p[1] for p in entry["places"] if p[0] == above)
            self.parent[new] = by_old.get(above)
            old, to = place[2]
            if old:
                self.steps[norm(old)] = to
                self.callee.setdefault(norm(old), place[3])
        self.loops = {norm(a): b for (a, b), _ in entry["loops"]}
        for a, b in self.loops.items():
            self.steps.setdefault(a, b)
        # what an arm of a match says, by the old step that said it
        self.arms = {}
        for arm in entry["arms"]:
            for field, step, rest in arm[2] if arm else []:
                if rest:
                    self.arms[norm(step), tuple(rest)] = [arm[0], field]
        self.params = entry["params"]
        self.of_need = {norm(a): b for a, b in self.needs}
        self.at = {b: asked[1] for (a, b), asked in zip(self.needs, entry["asked_at"])}

    def need(self, name):
        n = norm(name)
        for prefix in ("", "overflow-"):
            if n.startswith(prefix) and n[len(prefix):] in self.of_need:
                return self.of_need[n[len(prefix):]]
        return None

    def up(self, place, target):
        n = 0
        while place is not None and place != target:
            place = self.parent.get(place)
            n += 1
        return n if place else None


def fields_of(names, step, rest, said, path):
    """What follows a step in a path, by today's names."""
    if not rest:
        return rest
    callee = names.callee.get(step)
    if rest[0] in ("new", "auto") and len(rest) > 1 and rest[1] in ("0", "1"):
        ps = names.params.get(callee)
        j, k = 1, 0
        while j < len(rest) and rest[j] == "1":
            k += 1
            j += 1
        if ps and k < len(ps):
            if j < len(rest) and rest[j] == "0":
                j += 1
            return [rest[0], ps[k]] + rest[j:]
        said.append(f"{path}: parameters of {step} ({callee}: {ps})")
    return rest


def turn(path, fname, entry, said):
    text = open(path, encoding="utf-8").read()
    names = Names(entry)
    items = blocks(text)
    answers, renames, out, helpers = set(), {}, [], {}
    # where a name alone does not tell the goal, its place among the old answers does
    asked = [m.group(1) for item in items for m in re.finditer(rf"^{IDENT} :\s+tie\.Need-({IDENT})", item, re.M)]
    order = re.findall(IDENT, re.search(r"tie\.spec([\s\S]*)", text).group(1))
    local = dict((m.group(1), m.group(2)) for m in re.finditer(rf"^({IDENT}) :\s+tie\.Need-({IDENT})", text, re.M))
    order = [local[o] for o in order if o in local]
    named = {n: names.need(n) for n in asked}
    taken = set(filter(None, named.values()))
    left = [b for _, b in names.needs if b not in taken]
    lost = [n for n in order if not named[n]]
    if len(lost) == len(left):
        named.update(zip(lost, left))
    elif len(order) == len(names.needs):
        named = {n: b for n, (_, b) in zip(order, names.needs)}
    for item in items:
        m = re.search(rf"^({IDENT}) :\s+tie\.Need-({IDENT})", item, re.M)
        if m:
            new = named[m.group(2)]
            if new is None:
                said.append(f"{path}: no goal for {m.group(2)}")
            else:
                answers.add(new)
                renames[m.group(1)] = new
                item = item.replace(f"tie.Need-{m.group(2)}", f"tie.Need-{new}", 1)
        for kind in ("invariant", "decreases"):
            m = re.search(rf"^abbrev ({IDENT}) :\s+tie\.{kind}-({IDENT})", item, re.M)
            if m:
                to = names.loops.get(norm(m.group(2)))
                if to is None:
                    said.append(f"{path}: no loop {m.group(2)}")
                else:
                    item = item.replace(f"tie.{kind}-{m.group(2)}", f"tie.{kind}-{to}", 1)
                    renames[m.group(1)] = f"{kind}-{to}"
        out.append(item)
        head = re.search(rf"^(?:(?:abbrev|pub|unfoldable) )*({IDENT}) :\s([\s\S]*)", item, re.M)
        if head and "tie.Need-" not in head.group(2)[:60]:
            for i, (n, t) in enumerate(binders(head.group(2))):
                m = re.match(rf"\s*tie\.({IDENT})", t)
                if m:
                    helpers[head.group(1)] = (i, names.places.get(norm(m.group(1))))
                    break

    def paths(item):
        ctx = {}
        for head in re.finditer(rf"^( *)(?:(?:abbrev|pub|unfoldable) )*({IDENT}) :\s([\s\S]*?)(?=^\1\2(?=\s)|^\1unfolding|\Z)", item, re.M):
            name, ty = head.group(2), head.group(3)
            bs = binders(ty)
            need = re.match(rf"\s*tie\.Need-({IDENT})", ty)
            for n, t in bs:
                m = re.match(rf"\s*tie\.({IDENT})", t)
                if n and m:
                    ctx[n] = names.places.get(norm(m.group(1)))
            for cl in re.finditer(rf"^ *{re.escape(name)}((?: [^=\n]+?)?) =", item, re.M):
                args = [a for a in cl.group(1).split() if not a.startswith("{")]
                if need and args:
                    ctx[args[0]] = names.at.get(need.group(1))
                for (n, t), a in zip(bs, args):
                    m = re.match(rf"\s*tie\.({IDENT})", t)
                    if m and not t.startswith("tie.Need"):
                        ctx[a] = names.places.get(norm(m.group(1)))
        if not ctx:
            return item
        alias, step_alias = {}, {}
        changed = True
        while changed:
            changed = False
            for m in re.finditer(rf"let ({IDENT})(?: : [^=]+?)? = ({IDENT})((?:\.before)*)(?:\.({IDENT}))? in", item):
                root = alias.get(m.group(2), m.group(2) if m.group(2) in ctx else None)
                if root is None or m.group(1) in alias or m.group(1) in step_alias:
                    continue
                if m.group(4) is None:
                    alias[m.group(1)] = root
                    changed = True
                elif norm(m.group(4)) in names.steps:
                    step_alias[m.group(1)] = norm(m.group(4))
                    changed = True
        for a in alias:
            item = re.sub(rf"let {re.escape(a)}(?: : [^=]+?)? = {IDENT}(?:\.before)* in\s*", "", item)

        def one(m):
            root, rest = m.group(1), m.group(2).split(".")[1:]
            if root in step_alias:
                return root + "".join("." + r for r in fields_of(names, step_alias[root], rest, said, path))
            if root in alias:
                base = alias[root]
            elif root in ctx:
                base = root
            else:
                return m.group(0)
            i = 0
            while i < len(rest) and rest[i] == "before":
                i += 1
            if i == len(rest):
                before = m.string[:m.start()]
                words = re.findall(rf"({IDENT})(?= )", before[before.rfind("(") + 1:] if "(" in before else before)
                h = next((w for w in reversed(words[-2:]) if w in helpers), None)
                if h is None:
                    if rest or root in alias:
                        said.append(f"{path}: bare {m.group(0)}")
                    return base + ".before" * len(rest)
                n = names.up(ctx[base], helpers[h][1])
                if n is None:
                    said.append(f"{path}: {h} {m.group(0)}: {helpers[h][1]} is not before {ctx[base]}")
                    return m.group(0)
                return base + ".before" * n
            rest = rest[i:]
            for k in range(len(rest), 1, -1):
                if (norm(rest[0]), tuple(rest[1:k])) in names.arms:
                    rest = names.arms[norm(rest[0]), tuple(rest[1:k])] + rest[k:]
                    return base + "".join("." + r for r in rest)
            if rest[0] == "well-formed":
                rest[0] = "well_formed"
            if norm(rest[0]) in names.steps:
                old = norm(rest[0])
                rest = [names.steps[old]] + fields_of(names, old, rest[1:], said, path)
            return base + "".join("." + r for r in rest)

        lines = item.split("\n")
        for n, line in enumerate(lines):
            if re.match(rf" *{IDENT}(?: [^=]*)? =$| *{IDENT}(?: {IDENT})* = ", line):
                # the arguments of a clause stay
                left, eq, right = line.partition(" =")
                lines[n] = left + eq + re.sub(rf"{START}({IDENT})((?:\.{IDENT})*)", one, right) if " : " not in left else re.sub(rf"{START}({IDENT})((?:\.{IDENT})*)", one, line)
            elif not line.startswith("--") and not line.strip().startswith("--"):
                lines[n] = re.sub(rf"{START}({IDENT})((?:\.{IDENT})*)", one, line)
        return "\n".join(lines)

    turned = []
    for item in out:
        if re.search(r"^pub \S+[_-]spec :", item, re.M):
            continue
        item = paths(item)
        item = re.sub(rf"tie\.({IDENT})", lambda m: "tie." + names.places.get(norm(m.group(1)), m.group(1)), item)
        turned.append(item)
    text = "\n".join(turned)
    for a, b in renames.items():
        text = re.sub(rf"{START}{re.escape(a)}(?![\w'₀₁₂₃₄₅₆₇₈₉-])", lambda m: b, text)
    loops = [n for (_, n), _ in entry["loops"]]
    given = []
    for n in loops:
        given += [f"invariant-{n}", f"decreases-{n}"]
    given = [g for g in given if re.search(rf"^abbrev {re.escape(g)} :", text, re.M)]
    for _, new in names.needs:
        if new in answers:
            given.append(new)
        else:
            said.append(f"{path}: goal {new} has no answer")
            given.append("?" + new)
    text = text.rstrip("\n") + f"\n\npub {fname}_spec : {{M : Type 1}} → statement M\n{fname}_spec =\n    tie.close\n    (tie.spec\n    " + "\n    ".join(given) + ")\n"
    open(path, "w", encoding="utf-8").write(text)


def main():
    crate = os.path.abspath(sys.argv[1])
    name = os.path.basename(crate)
    with tempfile.TemporaryDirectory() as d:
        r = subprocess.run(["rt", "check", "--generated", d, "--old-names"], cwd=crate, capture_output=True, text=True)
        if not os.path.exists(d + "/names.json"):
            print(r.stdout + r.stderr)
            return 1
        table = json.load(open(d + "/names.json"))
    said = []
    for folder, _, files in os.walk(crate + "/proofs"):
        if "Proof.antt" in files:
            f = os.path.relpath(folder, crate + "/proofs").split("/")
            key = f"Rattle-{name}-proofs.{'.'.join(f)}.Lts"
            if key not in table:
                said.append(f"{folder}: no names")
                continue
            turn(folder + "/Proof.antt", f[-1], table[key], said)
    print("\n".join(s.replace(crate + "/proofs/", "") for s in said))
    return 0


if __name__ == "__main__":
    raise SystemExit(main())
