"""Prints the functions of crates/*/src that have more than five parameters besides self."""
import glob
import re

for path in sorted(glob.glob("crates/*/src/**/*.rt", recursive=True)):
    text = open(path).read()
    for head in re.finditer(r"\bfn (\w+)(<[^(]*>)?\(", text):
        depth, end = 1, head.end()
        while depth:
            depth += {"(": 1, ")": -1}.get(text[end], 0)
            end += 1
        parts, part, depth = [], "", 0
        for letter in text[head.end() : end - 1]:
            depth += {"(": 1, "<": 1, "[": 1, ")": -1, ">": -1, "]": -1}.get(letter, 0)
            if letter == "," and depth == 0:
                parts.append(part)
                part = ""
            else:
                part += letter
        parts.append(part)
        parts = [p for p in parts if p.strip() and "self" not in p.split(":")[0]]
        if len(parts) > 5:
            print(path, head.group(1), len(parts))
