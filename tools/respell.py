#!/usr/bin/env python3
"""Spells the definitions and lemmas of this repository as today's Rattle does: words in snake case, facts and types in camel case.

    tools/respell.py          at the top of the repository, once, right after the kit's port.py; it rewrites files in place

It goes by text. A name is respelled where a file of specs/ or a file of lemmas in proofs/ declares it; what a function's own folder of proofs
declares is named after the function's goals and stays. Names of src/, exported C names, strings, inputs and outputs stay. The last lines tell
names that fall together: a lemma that would meet the definition that it is about gets the ending `_lem`.
"""

import collections
import os
import re
import sys

WORD = r"[^\s(){}.;,@\"«»\[\]\\`|]+"
HEAD = re.compile(rf"^( *)((?:(?:pub|abbrev|unfoldable|private|data|record|constructor|instance) )*)({WORD})(.*)$")
# Names that would meet another of their own file, where no lemma can give way.
BY_HAND = {
    "itemsOn": "FileItemsOn",
    "goesOn": "going_on",
    "noBody": "no_body_number",
    "tooDeep": "too_deep_number",
    "noRoom": "no_room_number",
}
# A name of the library that a file of lemmas declares again.
KEEP = {"not-true"}
NOT_NAMES = {"use", "mod", "module", "mutual", "unfolding", "let", "in", "|", "λ", "where", "=", "elim"}


def files(root, folders, ends):
    for crate in sorted(os.listdir(root)):
        for sub in folders:
            for at, dirs, names in os.walk(os.path.join(root, crate, sub)):
                dirs.sort()
                for name in sorted(names):
                    if name.endswith(ends):
                        yield os.path.join(at, name)


def kind_of(rest):
    """What stands behind a declaration's colon, or None where the line is no declaration."""
    depth = 0
    for i, ch in enumerate(rest):
        if ch in "({":
            depth += 1
        elif ch in ")}":
            depth -= 1
        elif depth == 0 and ch == ":" and rest[i - 1 : i] in ("", " ") and rest[i + 1 : i + 2] in ("", " "):
            return rest[i + 1 :].strip()
        elif depth == 0 and ch != " ":
            return None
    return None


def declared(path):
    with open(path, encoding="utf-8") as f:
        for line in f:
            m = HEAD.match(line.rstrip("\n"))
            if not m or m[3] in NOT_NAMES or line.lstrip().startswith("--"):
                continue
            kind = kind_of(m[4])
            if kind is not None:
                yield m[3], kind


def snake(name):
    return re.sub(r"(?<=[a-z0-9])[A-Z]", lambda m: "_" + m[0].lower(), name).replace("-", "_")


def camel(name):
    return "".join(w[:1].upper() + w[1:] for w in re.split(r"[-_]", name))


def is_of_a_function(path):
    below = path.split("/proofs/", 1)[1]
    return "/" in below and path.endswith(("/Proof.antt", "/Answers.antt", "/Invariants.antt")) or "/Proof/" in path


def main():
    root = "crates"
    kinds, stated = collections.defaultdict(list), set()
    for path in files(root, ("specs", "proofs"), ".antt"):
        own = "/specs/" in path or "/proofs/" in path and os.path.basename(path)[:1].isupper() and not is_of_a_function(path)
        if own:
            for name, kind in declared(path):
                kinds[name].append(kind)
                if "/specs/" in path:
                    stated.add(name)
    turned = dict(BY_HAND)
    for name, all_kinds in kinds.items():
        facts = all(re.search(r"(→ |^)Type \d+( where)?$", k) for k in all_kinds)
        if name in turned or name in KEEP or name[0].isupper():
            continue
        new = camel(name) if facts and len(name) > 2 else snake(name)
        if new != name:
            turned[name] = new
    # Names that fall together in one file: the lemma gives way.
    texts = {p: set(re.findall(WORD, open(p, encoding="utf-8").read())) for p in files(root, ("specs", "proofs"), ".antt")}
    taken = collections.defaultdict(set)
    for name in kinds:
        taken[turned.get(name, name)].add(name)
    for new, olds in sorted(taken.items()):
        if len(olds) > 1 and any(olds <= t for t in texts.values()):
            lemmas = [o for o in sorted(olds) if o not in stated]
            if len(lemmas) in (0, len(olds)):
                lemmas = [o for o in sorted(olds) if "-" in o]
            for old in lemmas:
                turned[old] = new + "_lem"
            print("fell together:", *sorted(olds), "->", *(turned.get(o, o) for o in sorted(olds)))
    plain = {o: n for o, n in turned.items() if "-" not in o}
    token = re.compile(WORD)

    def respelled(text, table):
        return token.sub(lambda m: table.get(m[0], m[0]), text)

    met = []
    for path in files(root, ("specs", "proofs", "src", "must-fail", "wrong"), (".antt", ".rt", ".edit")):
        with open(path, encoding="utf-8") as f:
            text = f.read()
        before = {w for w in token.findall(text)}
        out = []
        for line in text.split("\n"):
            if path.endswith(".antt"):
                cut = line.find("-- ") if line.lstrip().startswith("--") else line.find(" -- ")
                code, comment = (line, "") if cut < 0 else (line[:cut], line[cut:])
                out.append(respelled(code, turned) + respelled(comment, plain))
            elif path.endswith(".rt"):
                parts = re.split(r'("(?:[^"\\]|\\.)*")', line)
                out.append("".join(p if i % 2 else respelled(p, {o: n for o, n in plain.items() if re.search("[A-Z]", o)} | ({} if "ghost use" not in line and "{ " not in line else plain)) for i, p in enumerate(parts)))
            else:
                out.append(respelled(line, turned if re.match(r"file: (specs|proofs)/", text[text.find("file:") :]) and not line.startswith("#") else {o: n for o, n in plain.items() if re.search("[A-Z]", o)}))
        new = "\n".join(out)
        for old in before:
            n = turned.get(old)
            if n and n in before and new != text and (path.endswith(".antt") or re.search(rf"\b{n} *: |let (mut )?{n}\b", text)):
                met.append((path, old, n))
        if new != text:
            with open(path, "w", encoding="utf-8") as f:
                f.write(new)
    for path, old, new in sorted(met):
        print(f"look: {path}: {old} is now {new}, which stood there already")
    print(f"{len(turned)} names respelled", file=sys.stderr)


main()
