#!/usr/bin/env python3
"""Brings the names that this repository's own specs/ and proofs/ declare to snake case, once, right after the toolchain's own script.

usage: tools/respell.py [--check] [ROOT]

A definition, field or lemma that begins in lower case and has capitals or dashes gets underscores, as twoAt to two_at and add-more to add_more. A dash stays where it joins
a name of the library to another or to one of specs/, as in length-drop. A fact keeps its capital. Functions of src/, labels that the prover makes, strings and outputs keep their names.
In docs a name turns inside a code span. It says on a line 'falls together:' where two names would meet, and then writes nothing.
"""
import collections
import os
import re
import sys

NAME = r'[^\s(){}.;,@"«»]+'
DECLARED = re.compile(rf"^\s*(?:(?:abbrev|unfoldable|pub|record|data|ruleset|module)\s+)*({NAME})(?:\s+\{{[^}}]*\}}|\s+\([^)]*\))*\s*(?::\s|=\s*\()")
HEAD = re.compile(r"^\s*(?:(?:abbrev|unfoldable|pub)\s+)*(record|data|ruleset)\s+(" + NAME + ")")
USE = re.compile(r"^\s*(?:pub )?use ([^\s;{]+?)\.\{([^}]*)\}", re.M)
LIBRARY = set("length append take drop set get_or replicate map filter reverse sum concat cons nil mod div add sub mul pow suc zero true false min max not and or xor bit_xor eqb ltb leb le lt".split())


def snake(word):
    return re.sub(r"(?<=[a-z0-9])[A-Z](?![A-Z])|(?<=[a-z0-9])[A-Z]+(?=$|_|-)|(?<=[a-z0-9])[A-Z]", lambda m: "_" + m[0].lower(), word)


def texts(root):
    for folder, dirs, files in os.walk(os.path.join(root, "crates")):
        dirs[:] = sorted(d for d in dirs if d != "out")
        for f in sorted(files):
            yield os.path.join(folder, f)


def made(path):
    """A proof of one function: its labels are the prover's."""
    return "/proofs/" in path and os.path.basename(path) in ("Proof.antt", "Answers.antt", "Invariants.antt")


def declared(root):
    names, facts = collections.defaultdict(set), set()
    for p in texts(root):
        if not p.endswith(".antt") or made(p):
            continue
        with open(p, encoding="utf-8") as f:
            for line in f:
                m = DECLARED.match(line) or HEAD.match(line)
                if m:
                    name = m[m.lastindex]
                    names[name].add(p)
                    if "/specs/" in p:
                        facts.add(name)
    return names, facts


def new_name(name, words):
    if not re.match(r"[A-Za-z]", name):
        return name
    parts = name.split("-")
    out = parts[0] if parts[0][0].isupper() else snake(parts[0])
    for a, b in zip(parts, parts[1:]):
        out += ("-" if a in LIBRARY and b in words else "_") + (b if b[:1].isupper() else snake(b))
    if re.match(r"[A-Z]", name) and "-" in name and name in PLAIN_FACTS:
        out = "".join(p[:1].upper() + p[1:] for p in parts)
    return out


PLAIN_FACTS = {"Look-holds"}

# A lemma of its function's name, that already had underscores: file's beginning, name.
LEMMAS = [("crates/signalling/proofs/", "item_by"), ("crates/signals/proofs/", "item_by"), ("crates/why/proofs/", "not_done")]
# Met beside the definition in no file that has both.
APART = {"item_in", "goes_on", "item_by", "left_by", "ends_at", "not_done"}


def used_from_elsewhere(text):
    """Names that a file has from the library."""
    out = set()
    for path, items in USE.findall(text):
        if not path.startswith("Rattle.") or path.startswith(("Rattle.std.", "Rattle.core.")):
            for item in items.split(","):
                out.add(item.split(" as ")[-1].strip())
                out.add(item.split(" as ")[0].strip())
    return out


def used_here(text):
    out = set()
    for path, items in USE.findall(text):
        if path.startswith("Rattle."):
            for item in items.split(","):
                out.update(x.strip() for x in item.split(" as "))
    return out


def main():
    args = [a for a in sys.argv[1:] if a != "--check"]
    root = args[0] if args else "."
    names, facts = declared(root)
    words = facts | LIBRARY
    table = {n: new_name(n, words) for n in names}
    table = {a: b for a, b in table.items() if a != b}
    bad = 0
    by_new = collections.defaultdict(set)
    for a, b in table.items():
        by_new[b].add(a)
    for b, olds in by_new.items():
        dashed = [a for a in olds if "-" in a]
        lemmas = dashed if len(dashed) == 1 else [a for a in olds if a not in facts]
        if (len(olds) == 2 and len(lemmas) == 1) or (len(olds) == 1 and (b in facts or b in LIBRARY) and lemmas):
            table[lemmas[0]] = b + "_lem"
        elif len(olds) > 1 or (b in names and b not in APART):
            print("falls together:", b, sorted(olds), sorted(names.get(b, []))[:2])
            bad += 1
    writes = []
    for p in texts(root):
        antt, rt, edit = p.endswith(".antt"), p.endswith(".rt"), p.endswith(".edit")
        if not (antt or rt or edit):
            continue
        with open(p, encoding="utf-8") as f:
            text = f.read()
        elsewhere = used_from_elsewhere(text)
        here = used_here(text) if made(p) else None

        lemmas = {w for start, w in LEMMAS if os.path.relpath(p, root).startswith(start)}

        def one(m, quiet=False):
            w = m[0]
            if w in lemmas:
                return w + "_lem"
            if w in table and w not in elsewhere and (here is None or w in here):
                if table[w] in elsewhere and not quiet:
                    print("falls together:", p, w, table[w], "with the library's")
                return table[w]
            return w

        if antt:
            new = re.sub(NAME, one, text)
        elif rt:
            new = re.sub(r'"(?:[^"\\\n]|\\.)*"|\b[a-z]\w*[A-Z]\w*\b', lambda m: m[0] if m[0][0] == '"' else one(m), text)
        else:
            new = re.sub(r"(?m)^(old|new): .*$", lambda m: re.sub(NAME if ".antt" in text else r"\b[a-z]\w*[A-Z]\w*\b", one, m[0]), text)
        if new != text:
            writes.append((p, new))
    for top in ("README.md", "docs", "tests", "tools"):
        for folder, dirs, files in [(root, [], [top])] if top.endswith(".md") else os.walk(os.path.join(root, top)):
            for f in files:
                p = os.path.join(folder, f)
                if not p.endswith(".md") or f in ("PORT.md",):
                    continue
                with open(p, encoding="utf-8") as it:
                    text = it.read()
                new = re.sub(r"`[^`\n]+`", lambda s: re.sub(r"[A-Za-z_][\w'-]*", lambda m: table.get(m[0], m[0]), s[0]), text)
                if new != text:
                    writes.append((p, new))
    if bad or "--check" in sys.argv:
        print(f"{len(table)} names, {len(writes)} files, {bad} meetings; nothing written")
        return 1 if bad else 0
    for p, new in writes:
        with open(p, "w", encoding="utf-8") as f:
            f.write(new)
    print(f"{len(table)} names, {len(writes)} files")
    return 0


if __name__ == "__main__":
    sys.exit(main())
