#!/usr/bin/env python3
"""Counts the places of docs/DESIGN-PASS.md in crates/*/src: python3 tools/places.py [--list] [CHECKOUT].

Each count is of a form that can be seen in the text; what a form means in its place is read, not counted.
"""
import collections
import pathlib
import re
import sys

WORDS = {
    "if", "else", "match", "while", "for", "in", "let", "mut", "return", "fn", "pub", "const", "as", "true", "false", "self", "impl",
    "requires", "ensures", "struct", "enum", "usize", "u8", "u32", "u64", "i64", "bool",
}


def functions(text):
    """Each function with a body: its name, the text before the body, the body, the line where it begins."""
    for m in re.finditer(r"^( *)(?:pub )?(?:const )?(?:extern \"C\" )?fn (\w+)", text, re.M):
        end = re.compile(rf"^{m.group(1)}}}", re.M).search(text, m.end())
        start = re.compile(rf"(?:^{m.group(1)}|[^{{}}\n]* )\{{$", re.M).search(text, m.end())
        if end is None or start is None or end.start() < start.start():
            continue
        yield m.group(2), text[m.start():start.start()], text[start.start():end.end()], text.count("\n", 0, m.start()) + 1


def shape(text):
    """The text with every name and number of its own made one."""
    text = re.sub(r"//.*", "", text)
    text = re.sub(r"(?:requires|ensures)(?: \w+)? \{.*?\}$", "", text, flags=re.M | re.S)
    tokens = re.findall(r"[A-Za-z_]\w*|[0-9][\w.]*|\S", text)
    return " ".join(t if t in WORDS or not (t[0].isalpha() or t[0] == "_" or t[0].isdigit()) else ("n" if t[0].isdigit() else "x") for t in tokens)


def blocks(text, head):
    """What stands in the braces behind each match of `head`, and the line."""
    for m in re.finditer(head, text):
        depth, i = 1, m.end()
        while i < len(text) and depth:
            depth += {"{": 1, "}": -1}.get(text[i], 0)
            i += 1
        yield m, text[m.end():i], text.count("\n", 0, m.start()) + 1


def main():
    words = [w for w in sys.argv[1:] if not w.startswith("--")]
    top = pathlib.Path(words[0] if words else ".")
    found = collections.OrderedDict((k, []) for k in (
        "1 enums of a value or a refusal", "1 flags with a value beside them", "1 refusals by number", "1 kinds by number: a match on three numbers or more",
        "2 functions of one shape in a crate", "3 loops that count by hand", "4 equality written by hand", "4 fields copied out by hand",
        "5 clauses of three functions or more", "6 a buffer and a place in it, handed along", "6 an array and its length in one struct",
        "7 a match whose every arm is a call of another function",
    ))
    clauses = collections.defaultdict(list)
    for path in sorted(top.glob("crates/*/src/**/*.rt")):
        text = path.read_text()
        where = str(path.relative_to(top))
        for m, body, line in blocks(text, r"\benum (\w+) \{"):
            if re.search(r"\b(No[A-Z]\w*|OutOfRange|TooMany|Refused)\b", body) and "(" in body:
                found["1 enums of a value or a refusal"].append(f"{where}:{line} {m.group(1)}")
        for m, body, line in blocks(text, r"\bstruct (\w+)(?:<[^>]*>)? \{"):
            for f in re.finditer(r"(\w+): bool,", body):
                found["1 flags with a value beside them"].append(f"{where}:{line} {m.group(1)}.{f.group(1)}")
            if re.search(r": \[\w+; \w+\],", body) and re.search(r"\blen: usize", body):
                found["6 an array and its length in one struct"].append(f"{where}:{line} {m.group(1)}")
        for m in re.finditer(r"return [1-9];|refused\([0-9],|Refused\([0-9]\)|Refused\(u32\)", text):
            found["1 refusals by number"].append(f"{where}:{text.count(chr(10), 0, m.start()) + 1} {m.group(0)}")
        for m, body, line in blocks(text, r"\bmatch ([\w.]+) \{"):
            if len(re.findall(r"^ +[0-9_| ]+ =>", body, re.M)) >= 3:
                found["1 kinds by number: a match on three numbers or more"].append(f"{where}:{line} {m.group(1)}")
            arms = re.findall(r"=> ([\w:]+)\(", body)
            if len(arms) >= 4 and len(arms) == body.count("=>") and len(set(arms)) >= 4 and not any(a.split("::")[-1][0].isupper() for a in arms):
                found["7 a match whose every arm is a call of another function"].append(f"{where}:{line} {m.group(1)}")
        for m in re.finditer(r"^ *while ", text, re.M):
            found["3 loops that count by hand"].append(f"{where}:{text.count(chr(10), 0, m.start()) + 1}")
        for m in re.finditer(r"\bfn (same_\w+)", text):
            found["4 equality written by hand"].append(f"{where} {m.group(1)}")
        for m in re.finditer(r"let (\w+) = \w+(?:\.\w+)*\.(\w+);", text):
            if m.group(1) == m.group(2):
                found["4 fields copied out by hand"].append(f"{where}:{text.count(chr(10), 0, m.start()) + 1} {m.group(0)}")
        # The functions of a trait and of its `impl`s are of one shape by intent: they are the instances.
        instances = [(line, line + body.count("\n")) for m, body, line in blocks(text, r"(?m)^(?:impl\b[^{\n]* for|(?:pub )?trait) [^{]*\{")]
        shapes = collections.defaultdict(list)
        for name, head, body, line in functions(text):
            if body.count("\n") >= 2 and not any(a < line <= b for a, b in instances):
                shapes[shape(head + body)].append(f"{where}:{line} {name}")
            for clause in re.findall(r"requires(?: \w+)? \{ (.*) \}", head):
                clauses[clause].append(f"{where}:{line} {name}")
            sign = re.sub(r"\s+", " ", head.split("requires")[0].split("ensures")[0])
            if re.search(r"\w+: &(mut )?\[u8\]", sign) and re.search(r"\b(at|from|start|n|len): usize", sign) and re.search(r"-> ", sign):
                found["6 a buffer and a place in it, handed along"].append(f"{where}:{line} {name}")
        for group in shapes.values():
            if len(group) > 1:
                found["2 functions of one shape in a crate"] += group
    for clause, places in clauses.items():
        if len(places) >= 3:
            found["5 clauses of three functions or more"].append(f"{len(places)} times: {clause}")
    for name, places in found.items():
        print(f"{len(places):4}  {name}")
        if "--list" in sys.argv:
            for place in places:
                print(f"        {place}")
    proofs = sum(len(p.read_text().splitlines()) for p in top.glob("crates/*/proofs/**/*.antt"))
    print(f"{proofs:4}  8 lines of proof")


main()
