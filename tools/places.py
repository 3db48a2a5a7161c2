"""Counts the places that the design page speaks of, by point, over crates/*/src.

    python3 tools/places.py            the counts
    python3 tools/places.py --list     each place too
    python3 tools/places.py FOLDER     the same over another checkout
"""
import re
import sys
from collections import defaultdict
from pathlib import Path

# Point, what is counted, and the pattern of a line.
LINES = [
    (1, "a refusal's number as a constant", r"const [A-Z_]+: u8 = \d+;"),
    (1, "a number in place of an answer", r"const (REFUSED|NONE|NO_FORCE|MISSING|EMPTY|WORD|BEYOND|OTHER_NUMBERS): u\w+ ="),
    (1, "a kind or a word by its number", r"\bkind: u(8|32)\b|\bkind == \d|: u64 = 0x|\bword: u64"),
    (1, "two counts in one number", r"[/%] DIFFERENT\b"),
    (3, "a loop by hand", r"^\s*(while|loop)\b"),
    (4, "comparing, ordering or converting by hand",
     r"\bfn (equal|differs?|any|least|less|lesser|most|greater|larger|smaller|not_above|reaches|held|shown|byte|short|wide|byte_to_\w+|to_u\w+|put_word|size_at|u16_at|u16_wide_at|u32_at|index_at|kind_of|made_number|count_of|newtons|load_of|refusal_of)\b"),
    (4, "a field named twice", r"^\s*([a-z]\w*): \1,$"),
    (6, "bytes and a place in them", r"\b(out: &mut \[u8\], at: usize|at: usize, out: &mut \[u8\]|text: &\[u8\], at: usize)|^    at: usize,$"),
    (6, "a roof's spans as numbers", r"\[u32; SPAN_NUMBERS\]"),
]

# An enum is of the shape of Option or Result by one of these variants.
NO_VALUE = r"^\s+(Refused|NoForce|NoRoof|Missing|NotAdded|Nowhere|Undated|Malformed)\b"

HEAD = re.compile(r"(?:^|\n)( *)(?:pub )?(?:extern \"C\" )?fn (\w+)[^{;]*?\((.*?)\)(?: -> ([^\n{]+?))?\n?((?:\s+(?:requires|ensures)[^\n]*\n?)*)\s*\{", re.S)


def places(top):
    found = defaultdict(list)
    demands = defaultdict(set)
    for path in sorted(Path(top).glob("crates/*/src/*.rt")):
        text = path.read_text()
        name = str(path.relative_to(top))
        for number, line in enumerate(text.split("\n"), 1):
            for point, what, pattern in LINES:
                if re.search(pattern, line):
                    found[point, what].append((name, number, line.strip()))
            if re.match(NO_VALUE, line):
                found[1, "an enum of the shape of Option or Result"].append((name, number, line.strip()))
        for head in re.finditer(r"(?:pub )?(?:extern \"C\" )?fn (\w+)(?:<[^(]*>)?\(", text):
            start = head.end()
            depth, end = 1, start
            while depth:
                depth += {"(": 1, ")": -1}.get(text[end], 0)
                end += 1
            parameters = [p for p in re.split(r",\s*(?![^\[<(]*[\]>)])", text[start:end - 1]) if p.strip()]
            line = text.count("\n", 0, head.start()) + 1
            rest = text[end:]
            brace = re.search(r"\n\s*\{|\{\n", rest)
            clauses = rest[:brace.end() if brace else 0]
            answer = re.match(r"\s*-> ([^\n{]+)", rest)
            if answer and answer.group(1).strip() == "u8":
                found[1, "a function that answers a number of 8 bits"].append((name, line, head.group(1)))
            if len(parameters) > 5:
                found[5, "more than five parameters"].append((name, line, head.group(1)))
            for clause in re.findall(r"requires[^\n]*", clauses):
                for fact in set(re.findall(r"\b([A-Z]\w+[a-z]\w*)\b|(store_refusal store\.now ≡ 0|map_refusal|site_refusal \w+ ≡ 0)", clause)):
                    demands[fact[0] or fact[1]].add((name, line, head.group(1)))
    for fact, functions in sorted(demands.items()):
        if len(functions) >= 3:
            for function in sorted(functions):
                found[5, f"asks for `{fact}`"].append(function)
    return found


def main():
    arguments = [a for a in sys.argv[1:] if a != "--list"]
    found = places(arguments[0] if arguments else ".")
    for (point, what), lines in sorted(found.items()):
        print(f"{point}  {len(lines):4}  {what}")
        if "--list" in sys.argv:
            for name, number, line in lines:
                print(f"         {name}:{number}: {line}")
    for point in sorted({p for p, _ in found}):
        print(f"point {point}: {sum(len(v) for (p, _), v in found.items() if p == point)}")


main()
