#!/usr/bin/env python3
"""Respells the repository's own definitions and lemmas in snake case: `ceilDiv` is `ceil_div`, `ceil-low` is `ceil_low`.

usage: tools/respell.py            in the repository, once
       tools/respell.py --dry      only says what it would rename, and which names would fall together

What the checker names itself (the goals of a function, its steps) is left alone, and so is each name that a file imports from a library
of the kit, each name of src/, each type and each module.
"""
import collections
import os
import re
import sys

WORD = re.compile(r"(?<![\w'₀-₉ℕℤ°-])[a-z][\w'?₀-₉ℕℤ]*(?:-[\w'₀-₉ℕℤ]+)*")
MADE = re.compile(r"tie\.|statement\b")
SIGNED = re.compile(r"^\s*(?:(?:abbrev|opaque|unfoldable|pub|instance)\s+)*([a-z][^\s:(){},.=|;]*)(?:\s+[({][^:]*:[^)}]*[)}])*\s*:(?:\s+(.*))?$")
BOUND = re.compile(r"[({]((?:[a-z][\w'-]* )*[a-z][\w'-]*) : ")
MIXED = re.compile(r"◌([a-z]\w*)◌")
OPENED = re.compile(r"^\s*(?:pub )?use ([^\s{]+)\.\{([^}]*)\}")


def files(ending):
    for folder, dirs, names in os.walk("crates"):
        dirs[:] = sorted(d for d in dirs if d != "out")
        for n in sorted(names):
            if n.endswith(ending):
                yield os.path.join(folder, n)


def read(p):
    with open(p, encoding="utf-8") as f:
        return f.read()


def snake(name):
    name = re.sub(r"(?<=[a-z0-9?])(?=[A-Z])|(?<=[A-Z])(?=[A-Z][a-z])", "_", name.replace("-", "_"))
    return name.lower()


def bare(line):
    return re.sub(r"--(?=\s|$).*", "", line)


def imports(text, own):
    """The names that a file has from a library of the kit."""
    found = set()
    for line in text.split("\n"):
        line = re.sub(r"^\s*ghost ", "", line)
        if m := OPENED.match(line):
            crate = re.match(r"Rattle\.(\w+)", m[1])
            if not (crate and crate[1] in own):
                for item in m[2].split(","):
                    found |= set(item.strip().split(" as "))
    return found


def main(dry):
    own = set(os.listdir("crates"))
    defined, made = collections.defaultdict(set), collections.defaultdict(set)
    for p in files(".antt"):
        for line in read(p).split("\n"):
            if m := SIGNED.match(bare(line)):
                (made if MADE.match(m[2] or "") or "-spec" in m[1] or re.match(r"(invariant|decreases)-", m[1]) else defined)[m[1]].add(p)
            for m in BOUND.finditer(bare(line)):
                for n in m[1].split():
                    defined[n].add(p)
            for m in MIXED.finditer(bare(line)):
                defined[m[1]].add(p)
    turned = {n: snake(n) for n in defined if snake(n) != n}
    names = collections.defaultdict(set)
    for n in defined:
        names[turned.get(n, n)].add(n)
    # two that would fall together: the definition has the name, and the lemma gets `_lem`
    lemmas = collections.defaultdict(dict)
    for n, olds in sorted(names.items()):
        if len(olds) > 1:
            first = min(olds, key=lambda o: ("-" in o, o == n and all("/proofs/" in p for p in defined[o])))
            for o in olds - {first}:
                for p in defined[o]:
                    lemmas[p][o] = n + "_lem"
                if "-" in o:
                    turned[o] = n + "_lem"
            print("falls together:", n, "for", first, "and", n + "_lem", "for", sorted(olds - {first}))
    count = 0
    for p in list(files(".antt")) + list(files(".rt")) + [os.path.join(d, f) for d in (".", "docs", "docs/landings", "tests", "bench", "examples") for f in sorted(os.listdir(d)) if f.endswith(".md")]:
        text = read(p)
        kit = imports(text, own)
        here = {n for n in made if p in made[n]}
        local = dict(lemmas.get(p, {}))
        for line in text.split("\n"):
            if (m := OPENED.match(line)) and (k := re.match(r"Rattle\.(\w+)\.proofs\.(\w+)$", m[1])):
                for o, n in lemmas.get(f"crates/{k[1]}/proofs/{k[2]}.antt", {}).items():
                    if o in re.split(r"[,\s]+", m[2]):
                        local[o] = n

        def turn(m):
            w = m[0]
            return w if w in kit or w in here else local.get(w, turned.get(w, w))

        if p.endswith(".md"):
            new = re.sub(r"`[^`\n]*`", lambda s: WORD.sub(turn, s[0]), text)
        else:
            new = WORD.sub(turn, text)
            clash = {turned[w] for w in set(WORD.findall(text)) if w in turned and w not in kit and w not in here} & kit
            if clash:
                print("with the kit's name:", p, clash)
        if new != text:
            count += 1
            if not dry:
                with open(p, "w", encoding="utf-8") as f:
                    f.write(new)
    print(len(turned), "names,", count, "files")


if __name__ == "__main__":
    main("--dry" in sys.argv)
