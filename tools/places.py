#!/usr/bin/env python3
"""Counts the places of docs/DESIGN-PASS.md in the sources of a checkout: python3 tools/places.py [FOLDER]. It reads crates/*/src/*.rt."""
import collections
import glob
import re
import sys

ROOT = sys.argv[1] if len(sys.argv) > 1 else "."
NUMBER = r"\b(?:u8|u16|u32|u64|usize|i16|i32)\b"


def sources():
    for path in sorted(glob.glob(ROOT + "/crates/*/src/*.rt")):
        with open(path) as file:
            yield path[len(ROOT) + 1 :], file.read()


def functions(text):
    """Each function: its line, name, parameters and result, clauses, body."""
    for m in re.finditer(r"^( *)(?:pub(?:\(crate\))? )?(?:extern \"C\" )?fn (\w+)", text, re.M):
        pad = m.group(1)
        rest = text[m.end() :]
        end = re.search(r"\n" + pad + r"\}\n", rest)
        whole = rest[: end.end()] if end else rest
        start = re.search(r"(?:^|[ \n])\{\n", whole)
        one = re.search(r" \{ (?!.*≡).*\}$", whole.split("\n")[0])
        head = whole[: start.start()] if start else whole
        body = whole[start.end() :] if start else (one.group(0) if one else "")
        signature = re.split(r"\n\s*(?:requires|ensures)", head)[0]
        yield text.count("\n", 0, m.start()) + 1, m.group(2), signature, head[len(signature) :], body


def grep(pattern):
    return [f"{p}:{n}: {l.strip()}" for p, t in sources() for n, l in enumerate(t.split("\n"), 1) if re.search(pattern, l) and not l.lstrip().startswith("//")]


def twins():
    """Functions whose text differs only in number types, numerals and their own names."""
    groups = collections.defaultdict(list)
    for path, text in sources():
        for line, name, signature, _, body in functions(text):
            code = re.sub(r"\s+", " ", re.sub(r"//[^\n]*", "", signature + "{" + body))
            code = re.sub(NUMBER, "N", code)
            code = re.sub(r"\b\d[\d_]*(?:u8|u32|u64)?\b", "0", code)
            if len(code) > 90:
                groups[code].append(f"{path}:{line}: {name}")
    return [g for g in groups.values() if len(g) > 1]


def repeated_facts():
    """A `requires` that stands in three or more contracts, with its parameters' names."""
    facts = collections.Counter()
    for path, text in sources():
        for _, _, _, clauses, _ in functions(text):
            for fact in re.findall(r"requires(?: \w+)? \{ (.*?) \}", clauses):
                facts[fact] += 1
    return [f"{n} x {fact}" for fact, n in facts.most_common() if n >= 3]


def together():
    """Runs of three or more parameters, by name and type, that stand one after the other in three or more functions."""
    runs = collections.Counter()
    for path, text in sources():
        for _, _, signature, _, _ in functions(text):
            inside = re.search(r"\((.*)\)", signature, re.S)
            if not inside:
                continue
            names = [re.sub(r"\s+", " ", x).strip() for x in re.split(r",(?![^<(\[]*[>)\]])", inside.group(1))]
            names = [x for x in names if ":" in x and not x.startswith("rt")]
            for size in range(3, len(names) + 1):
                for at in range(len(names) - size + 1):
                    runs[tuple(names[at : at + size])] += 1
    often = [r for r, n in runs.items() if n >= 3]
    longest = [r for r in often if not any(r != s and len(s) > len(r) and any(s[i : i + len(r)] == r for i in range(len(s))) for s in often)]
    return [f"{runs[r]} x ({', '.join(r)})" for r in longest]


def show(title, rows):
    print(f"{title}: {len(rows)}")
    for row in rows:
        print("   ", row if isinstance(row, str) else " | ".join(row))


show("1 enums", grep(r"^\s*(pub )?enum "))
show("1 values that stand for none", grep(r"(==|!=) 256\b|return 256;|^    256$|attribute == 0|^    0$|held != n"))
show("1 numbers for kinds", grep(r"\b(attribute|neighbours|side|call): u32"))
show("2 twins", twins())
show("3 loops", grep(r"^\s*(while|loop)\b|^\s*'\w+: (while|loop)|= '\w+: loop"))
show("4 by hand", grep(r"\bfn (number|sort|is_white|is_digit|same|starts_with|attribute_of|smaller|larger|least|most|byte|place|low|entry|word|field|text|contrast|digit|meant|put_samples|fill|reverse|hold|one_less)\b"))
show("4 casts", grep(r" as (u8|u16|u32|u64|usize|i16|i32)\b"))
show("5 facts", repeated_facts())
show("5 parameters", together())
show("6 arrays of a fixed length", grep(r"\[(u8|u16|u32|u64|usize|i16)?[^\]&]*; ?(\d{2,}|MOST_\w+|WORDS|N)\]|\[\w+; \d{2,}\]"))
show("7 choices of a step", grep(r"if call ==|match Call|match kind|match step\b|match attribute"))
