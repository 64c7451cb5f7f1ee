#!/usr/bin/env python3
"""Counts, in the sources of a commit, the places that docs/DESIGN-PASS.md speaks of.

usage: tools/places.py COMMIT [POINT]     the counts; with a point (1 to 8) its places too
COMMIT may be a dot for the files as they stand. Nothing is written."""
import re
import subprocess
import sys
from collections import defaultdict


def files(commit, pattern):
    """Path and text of each file below crates/ whose path fits."""
    args = ["git", "ls-files", "crates"] if commit == "." else ["git", "ls-tree", "-r", "--name-only", commit, "crates"]
    for path in subprocess.run(args, capture_output=True, text=True, check=True).stdout.split("\n"):
        if re.search(pattern, path):
            if commit == ".":
                try:
                    yield path, open(path, encoding="utf-8").read()
                except FileNotFoundError:
                    continue
            else:
                yield path, subprocess.run(["git", "show", f"{commit}:{path}"], capture_output=True, text=True, check=True).stdout


def uncommented(text):
    return re.sub(r"//[^\n]*", "", text)


def functions(text):
    """Each function: its name, its parameters, its clauses and its body, without comments."""
    text = uncommented(text)
    for m in re.finditer(r"\bfn (\w+)(<[^({]*>)?\(", text):
        i, depth = m.end(), 1
        while depth and i < len(text):
            depth += {"(": 1, ")": -1}.get(text[i], 0)
            i += 1
        params = text[m.end():i - 1]
        j = i
        # The body is the first brace that stands at a line's beginning, but for blanks; clauses have theirs behind a word.
        b = re.compile(r"(^|\n)[ ]*\{(?=\s)|(?<=\S) \{\n").search(text, j)
        if not b:
            continue
        k = text.index("{", b.start())
        clauses = text[j:k]
        end, depth = k + 1, 1
        while depth and end < len(text):
            depth += {"{": 1, "}": -1}.get(text[end], 0)
            end += 1
        yield m.group(1), params, clauses, text[k + 1:end - 1]


def enums(text):
    for m in re.finditer(r"\benum (\w+)[^{]*\{(.*?)\n\}", uncommented(text), re.S):
        cases = re.findall(r"^\s*(\w+)(\(.*?\))?\s*,\s*$", m.group(2), re.M)
        yield m.group(1), cases


def point1(source):
    """Own enums of the shape of Option or Result: with a case that refuses, or of two cases, one of which at least holds something."""
    own, handing, numbers = [], [], defaultdict(int)
    for path, text in source:
        for name, cases in enums(text):
            refusing = any(c == "Refused" or "Refusal" in held for c, held in cases)
            two = len(cases) == 2 and any(held for _, held in cases)
            if refusing or two or {c for c, _ in cases} >= {"Yes", "No"}:
                own.append(f"{path}: enum {name}")
        for n, line in enumerate(text.split("\n"), 1):
            if re.search(r"(Refused|Err)\((\w+)\) => (return )?(\w+::Refused|Err)\(\2\)", line):
                handing.append(f"{path}:{n}: {line.strip()}")
            if re.search(r"\bconst [A-Z0-9_]+: u8 = (0x)?[0-9A-F]+;", line):
                numbers[path] += 1
    return [("own enums", own), ("matches that only hand a refusal on", handing),
            ("lists of numbers for kinds or refusals", [f"{p}: {n}" for p, n in numbers.items() if n > 1])]


def point2(source):
    """Functions of the same body, but for types, numbers, strings and the names of functions of that file."""
    groups = defaultdict(list)
    for path, text in source:
        found = list(functions(text))
        names = {f[0] for f in found}
        for name, params, _, body in found:
            flat = " ".join(body.split())
            if len(flat) < 12:
                continue
            flat = re.sub(r"\b(u8|u16|u32|u64|usize|i64|f32|f64)\b", "T", flat)
            flat = re.sub(r"\b(0x)?[0-9][0-9A-Fa-f_]*(u8|u16|u32|u64|usize)?\b", "0", flat)
            flat = re.sub(r"\b(\w+)(?=\()", lambda m: "F" if m.group(1) in names or re.match(r"u\d+", m.group(1)) else m.group(1), flat)
            shape = re.sub(r"\b(u8|u16|u32|u64|usize)\b", "T", " ".join(params.split()))
            groups[flat, len(shape.split(","))].append(f"{path}: {name}")
    return [("twins, in groups", [" = ".join(g) for g in groups.values() if len(g) > 1])]


def point3(source):
    """Loops that count by hand, and loops over a range of numbers."""
    by_hand, ranges = [], []
    for path, text in source:
        for n, line in enumerate(text.split("\n"), 1):
            line = line.split("//")[0]
            if re.search(r"^\s*while ", line):
                by_hand.append(f"{path}:{n}: {line.strip()}")
            if re.search(r"^\s*for \w+ in [^.]+\.\.", line):
                ranges.append(f"{path}:{n}: {line.strip()}")
    return [("while loops", by_hand), ("for over a range", ranges)]


SMALL = r"bit|wide|lesser|less|less_one|span|both|same|is_done|is_sound|copy|copy_words|copy_owners|lay_old|word_at|word|same|begins|lay|unit_at"


def point4(source):
    """Functions that std or a derive has: by their names."""
    got = []
    for path, text in source:
        for name, params, _, _ in functions(text):
            if re.fullmatch(SMALL, name) and len(params) < 60:
                got.append(f"{path}: {name}")
    return [("functions that std or a derive has", got)]


def point5(source):
    """Clauses that stand at three functions or more of a crate, and runs of four parameters that do."""
    clauses, runs = defaultdict(set), defaultdict(set)
    for path, text in source:
        crate = path.split("/")[1]
        for name, params, clause, _ in functions(text):
            for c in re.findall(r"requires\s*\w*\s*\{(.*?)\}\s*(?:\n|$)", clause):
                clauses[crate, c.strip()].add(name)
            names = re.findall(r"(\w+)\s*:", params)
            for i in range(len(names) - 3):
                runs[crate, " ".join(names[i:i + 4])].add(name)
    facts = [f"{c}: {{ {t} }} at {len(s)}" for (c, t), s in clauses.items() if len(s) > 2]
    wide = [f"{c}: {t} at {len(s)}" for (c, t), s in runs.items() if len(s) > 2]
    return [("facts that three functions or more ask for", facts), ("runs of four parameters at three functions or more", wide)]


def point6(source):
    """Functions that take a buffer with a place or a count beside it, and functions that take three lent buffers or more."""
    beside, many = [], []
    for path, text in source:
        for name, params, _, _ in functions(text):
            if re.search(r"\w+: &mut \[\w+\],\s*(at|n|k|end): usize", params):
                beside.append(f"{path}: {name}")
            if len(re.findall(r": &(?:mut )?\[", params)) > 3:
                many.append(f"{path}: {name}")
    return [("a buffer with a place or a count beside it", beside), ("four buffers or more", many)]


def point7(source):
    """Matches on a value without content that says which step to run."""
    got = []
    for path, text in source:
        for n, line in enumerate(text.split("\n"), 1):
            if re.search(r"match (form|wins|rule|by|mode|kind)\b", line):
                got.append(f"{path}:{n}: {line.strip()}")
    return [("switches on a step", got)]


def point8(commit):
    count = [(p, len(t.split("\n"))) for p, t in files(commit, r"/proofs/.*\.antt$")]
    answers = [p for p, _ in count if p.endswith("Answers.antt")]
    return [("files of answers", answers), (f"lines of proofs: {sum(n for _, n in count)}", [])]


def main():
    commit = sys.argv[1]
    source = list(files(commit, r"/src/.*\.rt$"))
    for n, point in enumerate((point1, point2, point3, point4, point5, point6, point7, point8), 1):
        for title, places in point(commit if n == 8 else source):
            print(f"{n}. {title}: {len(places)}" if places or not title.startswith("lines") else f"{n}. {title}")
            if len(sys.argv) > 2 and sys.argv[2] == str(n):
                print("".join(f"   {p}\n" for p in places), end="")


main()
