#!/usr/bin/env python3
"""Brings the repository's own definitions and lemmas to snake case, after port.py: a dash or a capital within a word becomes `_`.

    tools/spelling.py [--try]

Run once, at the top, on what port.py left; it is refused where proofs have today's form, whose answers bear names that Rattle generates. Types, modules, functions of src/, exported C names, strings and comments in
plain words keep their spelling; names of the kit's libraries and the names that Rattle generates in proofs of functions do too. Prints the names that fall
together in a file, and writes nothing with --try.
"""
import collections
import os
import re
import sys

OWN = re.compile(r"^\s*(?:pub\s+)?use (Rattle\.(?:carv\w*|replay\w*)\.(?:specs|proofs)(?:\.[\w+']+)*)(?:\.\{([^}]*)\})?(?: as (\S+))?")
KIT = re.compile(r"^\s*(?:pub\s+)?use (?!Rattle\.(?:carv|replay))([\w+']+(?:\.[\w+']+)*)(?:\.\{([^}]*)\})?(?: as (\S+))?")
WORD = re.compile(r"(?<![\w'◌ℕ₀₁₂₃₄₅₆₇₈₉-])([A-Za-z][\wℕ₀-₉']*(?:-[\wℕ₀-₉'*]+)*)(?![\w'-])")
DECLARED = re.compile(r"^(\s*)(?:(?:abbrev|unfoldable|pub|record|data|ruleset|mutual)\s+)*([A-Za-z][\w₀-₉'-]*)((?:\s+\([^)]*\)|\s+\{[^}]*\})*)\s*(:|=)\s")

# A lemma that would have its function's name.
LEMMAS = {"all-zero": "all_zero_lem"}


def snake(word):
    """The word in snake case; a name that begins with a capital keeps its capitals."""
    if word in LEMMAS:
        return LEMMAS[word]
    parts = word.split("-")
    done = []
    for part in parts:
        part = {"getD": "get_or"}.get(part, part)
        if re.match(r"[a-z]", part) and not part[0].isupper():
            part = re.sub(r"(?<=[a-z])([A-Z])(?=[a-z])", lambda m: "_" + m.group(1).lower(), part)
        done.append(part)
    return "_".join(done)


def files():
    for folder, dirs, names in os.walk("crates"):
        dirs[:] = sorted(d for d in dirs if d not in ("out", "must-fail"))
        for name in sorted(names):
            if name.endswith((".antt", ".rt")):
                yield os.path.join(folder, name)


def of_function(path):
    """Whether the file is part of a function's proof, in which Rattle's generated names stand."""
    return "/proofs/" in path and path.endswith("/Proof.antt")


def declared(texts):
    names = set()
    for path, text in texts.items():
        if path.endswith(".antt"):
            for line in text.split("\n"):
                if not line.startswith(("use ", "--")):
                    if m := DECLARED.match(line):
                        names.add(m.group(2))
    return names


def turn(path, text, own):
    """The text with its names turned, and what each became."""
    kit, aliases = set(), set()
    for line in text.split("\n"):
        if m := KIT.match(line):
            kit.update(re.findall(r"[^\s,]+", m.group(2) or ""))
            if m.group(3):
                kit.add(m.group(3))
        if m := OWN.match(line):
            if m.group(3):
                aliases.add(m.group(3))
            if not m.group(2):
                aliases.add(m.group(1).split(".")[-1])
    became = {}
    proof, rt = of_function(path), path.endswith(".rt")

    def name(word):
        new = snake(word)
        if new != word:
            became.setdefault(new, set()).add(word)
        else:
            became.setdefault(word, set()).add(word)
        return new

    def ours(word, before):
        """Whether the word, behind this text of its line, is a name of ours."""
        if word in kit:
            return False
        if before.endswith("."):
            chain = re.search(r"([\w₀-₉'-]+)(?:\.[\w₀-₉'-]+)*\.$", before)
            head = chain.group(1) if chain else ""
            if proof:
                return head in aliases and word in own
            return word in own or "-" in word
        if proof or rt:
            return word in own
        return word in own or "-" in word

    def code(line):
        if rt and not re.match(r"\s*(ghost use|requires|ensures)|^\s+.*\}$|^\s", line) and not line.startswith("ghost use"):
            return line
        return WORD.sub(lambda m: name(m.group(1)) if ours(m.group(1), line[: m.start()]) else m.group(1), line)

    def comment(line):
        return re.sub(r"`([^`]*)`", lambda m: "`" + WORD.sub(lambda w: name(w.group(1)) if w.group(1) in own and w.group(1) not in kit else w.group(1), m.group(1)) + "`", line)

    lines = []
    for line in text.split("\n"):
        if KIT.match(line):
            lines.append(line)
            continue
        at = line.find("//" if rt else "--")
        if not rt and at > 0 and line[at - 1] not in " \t":
            at = -1
        if at >= 0 and '"' not in line[:at]:
            lines.append(code(line[:at]) + comment(line[at:]))
        elif rt and '"' in line:
            lines.append(line)
        else:
            lines.append(code(line))
    return "\n".join(lines), {new: old for new, old in became.items() if len(old) > 1}


def main():
    if any(path.endswith("/Answers.antt") for path in files()):
        sys.exit("The spelling is today's already.")
    texts = {path: open(path, encoding="utf-8").read() for path in files()}
    own = declared(texts)
    changed = 0
    for path, text in texts.items():
        new, together = turn(path, text, own)
        for name, old in sorted(together.items()):
            print(f"{path}: {' and '.join(sorted(old))} fall together")
        if new != text:
            changed += 1
            if "--try" not in sys.argv:
                with open(path, "w", encoding="utf-8") as it:
                    it.write(new)
    print(f"{changed} of {len(texts)} files turned")


if __name__ == "__main__":
    main()
