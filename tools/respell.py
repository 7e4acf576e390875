#!/usr/bin/env python3
"""Brings the repository's own definitions, fields and lemmas to snake case, after port.py: python3 tools/respell.py, once, at the top.

A name is taken from where it is declared in specs/ or proofs/ (a goal's answer is none: Rattle makes its name). A lemma that
would have the name of a function of src/ gets _lem, a definition that would have it gets _of.
"""
import os
import re

LEMMAS = """adding-adds adds-reach block-excludes-filling certificate-decides certificate-published check-decides every-run
fence-stays-on fillings-grow half-modulo-251 halls-compute hub-computes keeps-promises listings-ascend one-published one-separator
one-step peak-refuses peak-tells puts-reduce reduction-answers reduction-ends stops-at-trial thin-drops what-is-due worked-halls""".split()
DEFINITIONS = """boundary-code code-if column-sum count-line fence-code fence-line first-nonzero has-nonzero has-outside has-step is-fence
last-nonzero names-alone number-column one-sided per-byte sensor-line sensor-lines text-length triangles-at triangles-on usable-edges
usable-triangles value-at""".split()
RESERVED = set("data record deriving module where use mod pub package open as unfoldable abbrev axiom unfold unfolding ruleset mutual infix infixl infixr elim let in do Type".split())
DECLARED = re.compile(r"^\s*(?:abbrev |unfoldable |private )*(?:pub )?(?:ruleset )?((?:[^\s:(){};,.=\[\]λ|]+ )+):(?: |$)")
RULESET = re.compile(r"^\s*(?:pub )?ruleset (?:pub )?([\w'-]+)")
TOKEN = re.compile(r"(goal\.|given\.|Goals\.|Given\.)?([A-Za-zα-ωΑ-Ω][\w'₀-₉-]*)")


def texts():
    for folder, dirs, files in os.walk("crates"):
        dirs[:] = sorted(d for d in dirs if d not in ("out", "must-fail", "data"))
        for f in sorted(files):
            if f.endswith((".antt", ".rt")):
                yield os.path.join(folder, f)


def read(p):
    with open(p, encoding="utf-8") as f:
        return f.read()


def declared(paths):
    names = set()
    for p in paths:
        if not p.endswith(".antt"):
            continue
        for line in read(p).splitlines():
            if line.strip().startswith("--"):
                continue
            m = DECLARED.match(line)
            if m and not re.match(r"\s*(goal|given|need|rules?)\.", line[m.end():]):
                names.update(m.group(1).split())
            m = RULESET.match(line)
            if m:
                names.add(m.group(1))
    return {n for n in names if "-" in n and re.fullmatch(r"[A-Za-zα-ωΑ-Ω][\w'₀-₉-]*", n)}


def renamed(name):
    new = name.replace("-", "_")
    if name in LEMMAS:
        return new + "_lem"
    if name in DEFINITIONS:
        return new + "_of"
    return new


def main():
    paths = list(texts())
    names = declared(paths)
    to = {n: renamed(n) for n in names}
    if len(set(to.values())) != len(to):
        raise SystemExit("names fall together")

    def turn(m):
        return m.group(0) if m.group(1) else to.get(m.group(2), m.group(0))

    for p in paths:
        old = read(p)
        new = "\n".join(l if re.match(r"\s*(//|--)", l) and "`" not in l else TOKEN.sub(turn, l) for l in old.split("\n"))
        new = re.sub(r"«([A-Za-z_][A-Za-z0-9_']*)»", lambda m: m.group(0) if m.group(1) in RESERVED else m.group(1), new)
        if new != old:
            with open(p, "w", encoding="utf-8") as f:
                f.write(new)
    print(f"{len(to)} names respelled")


if __name__ == "__main__":
    main()
