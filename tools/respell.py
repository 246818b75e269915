#!/usr/bin/env python3
"""Turns the repository's own words and lemmas to snake case: definitions, lemmas, fields and bound names of specs/ and
proofs/, wherever they are cited (clauses of src/, proofs, must-fail edits, pages). It was run once, when the
repository came to a newer Rattle; names of src/, types and modules keep theirs.

usage: tools/respell.py [--check] FOLDER      FOLDER is the top of the repository
"""
import os
import re
import sys

WORD = re.compile(r"[^\s(){}\[\],;.@\"`⟨⟩]+")
DECLARED = re.compile(r"^\s*(?:(?:abbrev|unfoldable|pub|private|opaque)\s+)*([^\s(){}\[\],;.@\"`]+)\s*:(?=\s)", re.M)
LET = re.compile(r"\blet\s+([^\s(){}\[\],;.@\"`]+)\s*[:=]")
BOUND = re.compile(r"[({]((?:[^\s(){}\[\],;.@\"`:]+\s+)+):\s")
LAMBDA = re.compile(r"λ\s+((?:[^\s(){}\[\],;.@\"`:]+\s*)+)\.")
# A lemma that would have the name of its function gets '_lem'; these lemmas had their function's name but for a capital.
LEMMAS = "all_hold by_row in_order is_digit kept_byte kept_in no_line one_line signed_yes written_count".split()
# Fields of promises that would have a definition's name.
FIELDS = {"frame-paper": "paper_of_frame", "number-code": "number_of_code"}
IMPORT = re.compile(r"^\s*(?:ghost )?use ([\w.'·-]+)(?:\.\{([^}]*)\})?", re.M)


def turned(name):
    """The name in snake case; a type's stays, and so does one that is no word."""
    if not re.fullmatch(r"[a-zℕ][\w'₀-₉-]*", name):
        return name
    out = re.sub(r"(?<=[a-z0-9'])([A-Z])", lambda m: "_" + m.group(1).lower(), name)
    out = re.sub(r"(?<=[A-Z])([A-Z])(?![a-z])", lambda m: m.group(1).lower(), out)
    return out.replace("-", "_")


def files(top):
    for folder, dirs, names in os.walk(top):
        dirs[:] = [d for d in dirs if d not in ("out", ".git", "target")]
        for n in sorted(names):
            yield os.path.join(folder, n)


def main(argv):
    check = "--check" in argv
    top = [a for a in argv if a != "--check"][0]
    own, foreign, texts = set(), set(), {}
    for path in files(os.path.join(top, "crates")):
        if not path.endswith((".antt", ".rt", ".edit")):
            continue
        with open(path, encoding="utf-8") as f:
            texts[path] = f.read()
        if path.endswith(".antt") and not (os.path.basename(path) in ("Proof.antt", "Answers.antt", "Invariants.antt") and "/proofs/" in os.path.dirname(path)):
            text = re.sub(r"--.*", "", texts[path])
            own |= set(DECLARED.findall(text)) | set(LET.findall(text))
            for found in (BOUND, LAMBDA):
                for group in found.findall(text):
                    own |= set(group.split())
    mine = set(os.listdir(os.path.join(top, "crates")))
    for path, text in texts.items():
        for module, names in IMPORT.findall(text):
            parts = module.split(".")
            if parts[0] == "Rattle" and len(parts) > 1 and parts[1] in mine:
                continue
            foreign |= set(re.findall(r"[^\s,]+", names or ""))
    table = {}
    for name in sorted(own):
        new = turned(name)
        if new != name:
            if name in foreign:
                print("look: a library's name, as it was:", name)
                continue
            table[name] = new
    table.update(FIELDS)
    # a lemma that falls together with a definition
    news = {table[n] for n in table if "-" not in n} | own
    for old in list(table):
        if "-" in old and old not in FIELDS and table[old] in news:
            table[old] += "_lem"
    # two names that fall together
    back = {}
    for old, new in table.items():
        back.setdefault(new, []).append(old)
    words = set()
    for path, text in texts.items():
        if path.endswith(".antt"):
            words |= set(WORD.findall(text))
    for new, olds in sorted(back.items()):
        if len(olds) > 1:
            print("look: fall together:", olds, "->", new)
        if new in foreign:
            print("look: a library's name is met:", olds, "->", new)
        elif new in words:
            print("look: a name that stands is met:", olds, "->", new, "(own)" if new in own else "")
    print(len(table), "names")

    def line_turned(line, comment):
        def word(m):
            w = m.group(0)
            if w in LEMMAS and comment is False and line[m.start() - 1:m.start()] != ".":
                return w + "_lem"
            if w in table and not (comment and "-" in w):
                return table[w]
            return w
        return WORD.sub(word, line)

    for path, text in texts.items():
        out = []
        for line in text.split("\n"):
            if path.endswith(".antt"):
                cut = line.find("--")
                head, tail = (line, "") if cut < 0 else (line[:cut], line[cut:])
                out.append(line_turned(head, False) + line_turned(tail, True))
            elif path.endswith(".edit"):
                out.append(line if line.startswith("#") else line_turned(line, None))
            else:
                s = line.strip()
                ghost = s.startswith(("ghost ", "requires", "ensures"))
                cut = line.find("//")
                if ghost:
                    out.append(line_turned(line, False))
                elif cut >= 0:
                    out.append(line[:cut] + line_turned(line[cut:], True))
                else:
                    out.append(line)
        new = "\n".join(out)
        if new != text and not check:
            with open(path, "w", encoding="utf-8") as f:
                f.write(new)
    pages = [p for p in files(top) if p.endswith(".md")]
    for path in pages:
        with open(path, encoding="utf-8") as f:
            text = f.read()
        new = re.sub(r"`[^`\n]+`", lambda m: line_turned(m.group(0), None), text)
        if new != text and not check:
            with open(path, "w", encoding="utf-8") as f:
                f.write(new)


main(sys.argv[1:])
