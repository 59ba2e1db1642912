#!/usr/bin/env python3
"""Respells the repository's own definitions and lemmas: words in snake case, facts in camel case.

usage: python3 tools/respell.py        at the top of a checkout, once, right after the kit's port.py

It goes over every .antt and .rt file of crates/ and the pages README.md and docs/*.md. A name is the repository's own
if a file of specs/ or proofs/ declares it; goals that the prover names, names of the library and functions of src/ stay.
"""
import os
import re
import sys

WORD = r"[A-Za-z_\u2115][\w'\u2115]*(?:-[\w'\u2115]+)+"
TOKEN = re.compile(r"(?<![\w'\u2115-])" + WORD + r"(?![\w'\u2115-])")
DECLARED = re.compile(r"^\s*(?:(?:pub|abbrev|unfoldable|record|data|ruleset)\s+)*(" + WORD + r")\s*(?:\{[^}]*\}\s*|\([^)]*\)\s*)*:(?!\s*goal\.)", re.M)
# declared in more places than one under the library's name for the same thing
KEEP = set(sys.argv[1:])


def files():
    for top, dirs, names in os.walk("crates"):
        dirs[:] = sorted(d for d in dirs if d not in ("out", ".git"))
        for n in sorted(names):
            if n.endswith((".antt", ".rt")):
                yield os.path.join(top, n)


def read(p):
    with open(p, encoding="utf-8") as f:
        return f.read()


def respelled(name):
    parts = name.split("-")
    if parts[0][0].isupper() and not (len(parts[0]) == 1 and len(parts) == 2):
        return parts[0] + "".join(q[0].upper() + q[1:] for q in parts[1:])
    return "_".join(parts)


MADE = ["overflow_add", "overflow_sub", "overflow_mul", "overflow_cast", "overflow_step", "nonzero_div", "nonzero_rem", "slice_bounds", "offset_bounds", "invariant_of", "in_default", "in_ok", "in_err", "type_inv", "deref_mut", "index_mut", "as_slice", "from_residual"]


def rejoined(token, idents):
    for d, i in idents:
        token = re.sub(r"(?<![\w'-])" + d + r"(?![\w'])|(?<=-)" + d + r"(?![\w'])", i, token)
    return token


def goals(text, idents):
    """The names that the prover makes keep the spelling of the source's names."""
    made = set(re.findall(r"(?<=\.)" + WORD + r"(?![\w'-])", text))
    for m in sorted(made, key=len, reverse=True):
        n = rejoined(m, idents)
        if n != m:
            text = re.sub(r"(?<![\w'\u2115-])" + re.escape(m) + r"(?![\w'\u2115-])", n, text)
    return text


def clauses(text):
    """In a function over any board or entry the meaning is that of its bound."""
    out = []
    for line in text.split("\n"):
        if re.match(r"\s*(requires|ensures)\b", line):
            line = re.sub(r"(?<![\w.{])(?<!ensures )shape (?=\w)", "B.Board.shape ", line)
            line = re.sub(r"\b(Queued|Offered|Searching|Found) site (?=[n(])", r"\1 E.Entry.site ", line)
        out.append(line)
    return "\n".join(out)


def main():
    texts = {p: read(p) for p in files()}
    own = set()
    for p, t in texts.items():
        if p.endswith(".antt"):
            own.update(DECLARED.findall(t))
    library = set()
    for t in texts.values():
        for names in re.findall(r"^(?:ghost )?use (?:Rattle\.std|borrow|native|lib|mathlib|Prim|denote)\.[\w.\u00b7]*\{([^}]*)\}", t, re.M):
            library.update(n.split(" as ")[-1].strip() for n in names.split(","))
    both = sorted(own & library)
    own -= library | KEEP
    new = {n: respelled(n) for n in own}
    taken = {}
    for n, m in sorted(new.items()):
        taken.setdefault(m, []).append(n)
    words = set()
    for t in texts.values():
        words.update(re.findall(r"(?<![\w'-])[A-Za-z_][\w']*(?![\w'-])", t))
    for m, ns in sorted(taken.items()):
        if len(ns) > 1:
            print("fall together:", ", ".join(ns), "as", m)
        if m in words:
            print("stood already:", m, "for", ns[0])
    if both:
        print("the library's too, left:", ", ".join(both))
    idents = set(MADE)
    for p, s in texts.items():
        if p.endswith(".rt"):
            code = "\n".join(l for l in s.split("\n") if not re.match(r"\s*(//|ghost |requires|ensures)", l))
            idents.update(re.findall(r"\b[a-z]\w*_\w+\b", code))
    idents = sorted(((i.replace("_", "-"), i) for i in idents), key=lambda x: -len(x[0]))
    pages = ["README.md"] + sorted(os.path.join("docs", d) for d in os.listdir("docs") if d.endswith(".md"))
    for p in list(texts) + pages:
        t = texts.get(p) or read(p)
        s = TOKEN.sub(lambda m: new.get(m.group(0), m.group(0)), t) if p not in pages else re.sub(r"`[^`\n]*`", lambda q: TOKEN.sub(lambda m: new.get(m.group(0), m.group(0)), q.group(0)), t)
        if p.endswith(("/Answers.antt", "/Invariants.antt", "/Proof.antt")):
            s = goals(s, idents)
        if p.endswith(".rt"):
            head, dot, rest = s.partition("pub trait Board {")
            trait, end, rest = rest.partition("\n}\n")
            s = clauses(head) + dot + trait + end + clauses(rest)
        if s != t:
            with open(p, "w", encoding="utf-8") as f:
                f.write(s)
    print(len(new), "names respelled")


main()
