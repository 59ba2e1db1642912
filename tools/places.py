#!/usr/bin/env python3
"""Counts, in crates/*/src, the places where today's Rattle has a plainer form: tools/places.py [-l] [POINT]. -l lists them."""
import glob
import re
import sys

# For each point: what is looked for, and the pattern of a place (tests are left out by cutting a file at its first cfg(test)).
POINTS = {
    "1": [
        ("a number that means nothing", r"-> u8\n(?:    ensures.*\n)+\{\n    0\n\}"),
        ("a refusal as numbers", r"->[^{;]*\bu8, u64"),
        ("a number for a kind", r"fn \w+(?:<[^>]*>)?\([^)]*\) -> (?:u8|\(u8, u8\))\n(?!(?:    ensures.*\n)+\{\n    0\n\})"),
        ("a mark written as a number", r"(?:bytes|marks)\[\w+\] (?:=|==|>) \d;?|\{ 2 \} else \{ 0 \}"),
        ("true or false for done or refused", r"fn (?:push|settle_within)\b[^{]*-> bool"),
        ("a flag beside a value", r"^    (?:pub |pub\(crate\) )?\w+: bool,"),
        ("a place, or a number for none", r"// The (?:first )?place[^\n]*, or [^\n]*"),
        ("an answer taken apart and made again", r"Err\((\w+)\) => Err\(\1\)|Err\((\w+)\) = [^{]*\{\s*return Err\(\2\)|None => None,|Ok\((\w+)\) => Ok\(Some\(\3\)\)|else \{\s*return None;\s*\}"),
    ],
    "2": [
        ("a refusal written out", r"(?<!struct )(?<!-> )(?<!for )\bRefusal \{\n"),
        ("a crate's own function for a refusal", r"fn refused\("),
        ("a walk over the sites that a site is linked to", r"let mut (?:j|from) = [0j];\s*(?://[^\n]*\s*)?loop \{"),
        ("has a site wait", r"fn (?:wait|offer|wake|wait_round|wake_round|spread)\b(?=[^{]*List<)"),
        ("makes all entries 0", r"fn clear\((?!&mut self)"),
        ("the lowest that", r"fn (?:lowest_\w+|find)\b"),
        ("none is above a limit", r"fn (?:all_low|within)\b"),
        ("a sum of links over records", r"sum \+= (?:links_of|drain_of)"),
        ("one letter's reader", r"^fn read_\w+\(words"),
        ("calls that differ in a check or a list", r"fn (?:fire|fire_near|settle_fit|settle_counted|told|sent)\b(?!\(&mut|<B: Board>\(&mut)|^fn (?:resume|drop_grains|close|shelve)<"),
        ("an array with a number of those held, as a table of links", r"\[Link; (?:4096|32)\],"),
    ],
    "3": [
        ("a cursor moved by hand", r"\n\s+(?:loop|while (?!let )[^\n]*) \{"),
        ("an index over a list", r"for [a-z]\w* in \w+\.\.[^{]*\{"),
    ],
    "4": [
        ("a number or a letter of a kind", r"fn (?:number|letter|kind)\(self\)|fn kind_of\("),
        ("a name of a kind", r"fn name\("),
        ("printing by hand", r"fn show\w*\("),
        ("1 where a test holds", r"\{ 1 \} else \{ 0 \}|return 1;"),
        ("a wider number by as", r"\bas u(?:64|32)\b"),
        ("a struct copied field by field", r"site: old\.site"),
        ("equality by hand", r"fn is_alike\("),
    ],
    "5": [],
    "6": [
        ("a buffer with a number of those held", r"^    held: usize,|^    len: usize,"),
        ("lists side by side", r"^    (?:pub )?(?:heights|counts|opened): Vec<u64>,"),
    ],
    "7": [
        ("an arm for each step", r"=> read_\w+\(words\)"),
        ("functions that differ in the call they make", r"^fn (?:resume|drop_grains|close|shelve)<"),
    ],
}


# Point 5 is counted by crate: clauses, and runs of parameters, that three or more functions share.
FN = re.compile(r"\bfn (\w+)(?:<[^(]*>)?\(([^{;]*?)\)(?: -> [^{;]*?)?\n((?:\s+(?:requires|ensures)[^\n]*\n)*)", re.M)


def shared(folder):
    clauses, runs = {}, {}
    for path in sorted(glob.glob(f"{folder}/src/**/*.rt", recursive=True)):
        for name, parameters, contract in FN.findall(text(path)[1]):
            who = (path, name)
            for kind, fact in re.findall(r"(requires|ensures) (?:\w+ )?\{ (.*) \}", contract):
                if "InOrder" not in fact:
                    clauses.setdefault((kind, fact.replace(".old", ".now")), set()).add(who)
            words = [w.strip() for w in re.split(r",(?![^<(\[]*[>)\]])", parameters) if w.strip() and "self" not in w]
            for i in range(len(words)):
                for j in range(i + 2, len(words) + 1):
                    runs.setdefault(tuple(words[i:j]), set()).add(who)
    facts = [(" ".join(k), v) for k, v in clauses.items() if len(v) >= 3]
    long = [(k, v) for k, v in runs.items() if len(v) >= 3]
    whole = [(", ".join(k), v) for k, v in long if not any(len(o) > len(k) and v <= w and set(k) <= set(o) for o, w in long)]
    return facts, whole


def text(path):
    s = open(path).read()
    cut = s.find("#[cfg(test)]")
    return s, s if cut < 0 else s[:cut]


def main():
    listing = "-l" in sys.argv
    asked = [a for a in sys.argv[1:] if a != "-l"]
    for point, rows in POINTS.items():
        if asked and point not in asked:
            continue
        whole = 0
        lines = []
        if point == "5":
            for folder in sorted(glob.glob("crates/*")):
                for what, found in zip(("facts", "runs of parameters"), shared(folder)):
                    whole += len(found)
                    if found:
                        lines.append(f"    {len(found):3} {what} of {folder[7:]}")
                    if listing:
                        lines += [f"          {t} ({len(v)}: {', '.join(sorted(n for _, n in v))})" for t, v in found]
        for what, pattern in rows:
            found = []
            for path in sorted(glob.glob("crates/*/src/**/*.rt", recursive=True)):
                every, code = text(path)
                for m in re.finditer(pattern, every if "as numbers" in what else code, re.M):
                    found.append(f"{path}:{every.count(chr(10), 0, m.start() + len(m.group()) - len(m.group().lstrip())) + 1}")
            whole += len(found)
            lines.append(f"    {len(found):3} {what}")
            if listing:
                lines += [f"          {f}" for f in found]
        print(f"point {point}: {whole}")
        print("\n".join(lines))


main()
