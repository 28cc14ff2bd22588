#!/usr/bin/env python3
"""Spells the repository's own names as Rattle does, after port.py: words in snake case, a dash only between two names of definitions.

usage: python3 tools/respell_names.py [--list]      at the top of the repository, once; --list prints the mapping and changes nothing

It reads which names specs/ and proofs/ declare, and renames those in crates/ alone: names of src/ that are no ghost names, exported names, strings and
names that Rattle makes stay. It stops where two names would fall together.
"""
import collections
import glob
import re
import sys

DECLARED = re.compile(r"^(\s*)((?:(?:pattern|unfoldable|abbrev|pub|record|data|ruleset) )*)([^\s:(){}=,;.]+)(?=\s+[({]|\s*:| =)")
WORD = re.compile(r"[^\s(){}\[\],;.:\"@|]+")
KEYWORDS = {"use", "module", "open", "where", "let", "mod", "unfolding", "infixl", "infixr", "infix", "in", "λ", "--", "pub", "with"}
# what std's own lemmas are named after
STD = set("length take drop append set zero suc true false some none lt le add mul sub div mod pow xor and or not eqb leb ltb map concat replicate "
          "digits eq get_or nil cons fst snd bit_xor bit_and Some None Ok Err".split())


def antt():
    return sorted(f for part in ("specs", "proofs") for f in glob.glob(f"crates/*/{part}/**/*.antt", recursive=True) if not f.endswith("/Proof.antt"))


def snake(name):
    """A name in camel case, as keySlices, in snake case; types keep their capital."""
    if name[:1].isupper() or not re.search(r"[a-z0-9][A-Z]|[a-z][0-9]*[A-Z]", name):
        return name
    return re.sub(r"(?<=[a-z0-9])([A-Z])", lambda m: "_" + m.group(1).lower(), name)


def declared():
    names, functions, fields = set(), set(), set()
    for f in antt():
        record = None
        for line in open(f, encoding="utf-8"):
            m = DECLARED.match(line)
            if not m or m.group(3) in KEYWORDS or m.group(3).startswith("--"):
                continue
            indent, marks, name = len(m.group(1)), m.group(2).split(), m.group(3)
            if "record" in marks and line.rstrip().endswith("where"):
                record = indent
                functions.add(name)
            elif record is not None and indent > record:
                fields.add(name)
            elif record is not None:
                record = None
            if not marks and indent and ":" not in line:
                continue
            names.add(name)
            if "abbrev" in marks or "unfoldable" in marks or "record" in marks:
                functions.add(name)
    return names, functions | fields, fields


def renamed(name, functions):
    parts = name.split("-")
    turned = [snake(p) for p in parts]
    text = turned[0]
    for i in range(1, len(parts)):
        both = all(p in functions or p in STD for p in (parts[i - 1], parts[i]))
        text += ("-" if both else "_") + turned[i]
    return text


def main():
    names, functions, fields = declared()
    mapping = {}
    for n in sorted(names):
        if re.fullmatch(r"-+", n):
            continue
        new = renamed(n, functions)
        if new != n:
            mapping[n] = new
    # a lemma that would have its function's name
    back = collections.defaultdict(list)
    for n in names:
        back[mapping.get(n, n)].append(n)
    for new, olds in back.items():
        for n in olds:
            if len(olds) > 1 and (n not in functions or "-" in n):
                mapping[n] = new + "_lem"
    back = collections.defaultdict(list)
    for n in names:
        back[mapping.get(n, n)].append(n)
    clash = {k: v for k, v in back.items() if len(v) > 1}
    for k, v in sorted(clash.items()):
        print(f"fall together: {', '.join(sorted(v))} as {k}")
    if "--list" in sys.argv:
        for a, b in sorted(mapping.items()):
            print(a, b)
    if clash:
        return 1

    def turn(path):
        text = open(path, encoding="utf-8").read()
        words = set(WORD.findall(text))
        if path.endswith(".antt"):
            for old in words & mapping.keys():
                if mapping[old] in words:
                    print(f"{path}: has {mapping[old]} beside {old}")

        def one(m):
            w = m.group(0)
            if w in mapping and (m.start() == 0 or text[m.start() - 1] != "." or w in fields or text[max(0, m.start() - 40):m.start()].rpartition(" ")[2].startswith("Rattle")):
                return mapping[w]
            return w

        out = WORD.sub(one, text)
        if out != text and "--list" not in sys.argv:
            open(path, "w", encoding="utf-8").write(out)

    for path in sorted(glob.glob("crates/**/*.antt", recursive=True) + glob.glob("crates/**/*.rt", recursive=True) + glob.glob("crates/*/must-fail/*.edit")):
        turn(path)
    print(f"{len(mapping)} names")
    return 0


if __name__ == "__main__":
    raise SystemExit(main())
