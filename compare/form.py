#!/usr/bin/env python3
"""The form of a sheet, by a second program: written from docs/SHEETS.md, with no code of the laboratory.

compare/form.py verdict FILE          print 'good' or the refusal of one sheet
compare/form.py compare PROGRAM N     run PROGRAM on N generated sheets, good and damaged, and count differences
"""
import random
import re
import subprocess
import sys

NUMBER = re.compile(rb"(0|[1-9][0-9]{0,12})\Z")
WORDS = {  # N a number, E a number or the drain
    "g": "NN", "n": "N", "l": "NEN", "e": "N", "m": "NN", "c": "NEN", "h": "NN", "k": "N",
    "d": "NN", "f": "N", "r": "N", "w": "", "s": "", "p": "", "u": "",
}
# The whole order as one pattern over the letters; a prefix is in order if it can be continued.
ORDER = re.compile(r"(g|nl*)e?m?c*h*k[dfrwspu]*\Z")
CONTINUED = ["", "k", "gk"]


def in_order(letters):
    return any(ORDER.match(letters + rest) for rest in CONTINUED)


def fits(word, place):
    return bool(NUMBER.match(word)) or (place == "E" and word == b"*")


def bad_line(line, ended, letters):
    """The row and column of a bad line, or its letter."""
    for i, b in enumerate(line):
        if not re.match(rb"[a-z0-9 *]", bytes([b])):
            return 10, i + 1
    if not ended:
        return 10, len(line) + 1
    first, *rest = line.split(b" ")
    letter = first.decode()
    if letter not in WORDS or len(letter) != 1 or not in_order(letters + letter):
        return 11, 1
    column = 3
    places = WORDS[letter]
    for i, word in enumerate(rest):
        if i >= len(places) or not fits(word, places[i]):
            return 12, column
        column += len(word) + 1
    if len(rest) < len(places):
        return 12, len(line) + 1
    return letter


def verdict(sheet):
    """None for a sheet of good form, else (row, line, column)."""
    if len(sheet) > 65536:
        return 2, 0, 0
    *ended, last = sheet.split(b"\n")
    lines = [(l, True) for l in ended] + ([(last, False)] if last else [])
    letters = ""
    for number, (line, has_end) in enumerate(lines, 1):
        found = bad_line(line, has_end, letters)
        if isinstance(found, tuple):
            return found[0], number, found[1]
        letters += found
    if not ORDER.match(letters):
        return 11, len(lines) + 1, 1
    return None


def shown(v):
    return "" if v is None else "! %d %d %d\n" % v


def number(r):
    return str(r.choice([0, 1, 2, 3, 7, 10, 64, 4096, 999999, 10**12, 10**13 - 1, r.randrange(10**13)]))


def good(r):
    """A sheet of good form."""
    def line(letter):
        words = [number(r) if p == "N" or r.random() < 0.6 else "*" for p in WORDS[letter]]
        return " ".join([letter] + words)
    letters = r.choice(["g", "n" + "l" * r.randrange(4)]) + r.choice(["", "e"]) + r.choice(["", "m"])
    letters += "c" * r.randrange(3) + "h" * r.randrange(3) + "k"
    letters += "".join(r.choice("dfrwspu") for _ in range(r.randrange(8)))
    return "".join(line(l) + "\n" for l in letters).encode()


def damaged(r, sheet):
    """The same with one to three small damages."""
    b = bytearray(sheet)
    for _ in range(r.choice([1, 1, 1, 2, 3])):
        at = r.randrange(len(b) + 1) if b else 0
        kind = r.randrange(7)
        if kind == 0 and b:
            del b[min(at, len(b) - 1)]
        elif kind == 1:
            b.insert(at, r.choice(b"abcdefghklmnprsuw0123456789 *\n"))
        elif kind == 2 and b:
            b[min(at, len(b) - 1)] = r.choice(b"gnlemchkdfrwspu 019*\n\r\tG?\x00\xff")
        elif kind == 3:
            ls = bytes(b).split(b"\n")
            r.shuffle(ls)
            b = bytearray(b"\n".join(ls))
        elif kind == 4:
            ls = bytes(b).split(b"\n")
            i = r.randrange(len(ls))
            ls.insert(i, r.choice(ls))
            b = bytearray(b"\n".join(ls))
        elif kind == 5:
            ls = bytes(b).split(b"\n")
            del ls[r.randrange(len(ls))]
            b = bytearray(b"\n".join(ls))
        elif kind == 6:
            b = b[:at]
    return bytes(b)


def compare(program, count):
    r = random.Random(1)
    differ, rows = 0, {}
    for i in range(count):
        sheet = good(r)
        if i % 4:
            sheet = damaged(r, sheet)
        if i % 500 == 7:
            head = b"g 1 1\nk 9\n"
            sheet = head + b"w\n" * ((65536 - len(head)) // 2) + r.choice([b"", b"\n", b"w\n", b"x"])
        want = verdict(sheet)
        got = subprocess.run([program], input=sheet, stdout=subprocess.PIPE).stdout.decode()
        row = want[0] if want else "good"
        rows[row] = rows.get(row, 0) + 1
        # a sheet of good form is carried out: its report does not begin with a refusal of form
        if want and got != shown(want) or not want and re.match(r"! (10|11|12) ", got):
            differ += 1
            print("differs:", sheet[:200], "want", shown(want).strip() or "good", "got", got[:80].strip())
    print("%d sheets, %d differ" % (count, differ))
    for row in sorted(rows, key=str):
        print("  %s: %d" % (row if row == "good" else "row %d" % row, rows[row]))
    return 1 if differ else 0


if __name__ == "__main__":
    if len(sys.argv) == 3 and sys.argv[1] == "verdict":
        with open(sys.argv[2], "rb") as f:
            v = verdict(f.read())
        print(shown(v).strip() or "good")
    elif len(sys.argv) == 4 and sys.argv[1] == "compare":
        sys.exit(compare(sys.argv[2], int(sys.argv[3])))
    else:
        sys.exit(__doc__)
