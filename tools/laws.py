#!/usr/bin/env python3
"""Moves the laws, after tools/spelling.py: `specs/laws/` becomes `proofs/Laws/` in the crates whose must-fail edits change definitions, since an edit of a
definition counts only where no theorem in specs/ rests on it, and `specs/Laws/` in the others, as modules are in camel case. Statements stay as they are.

    tools/laws.py

Run once, at the top; it finds nothing to do a second time.
"""
import os
import re
import subprocess

MOVED = ["carv_budget", "carv_register_image", "carv_objects_spec", "carv_scheduler_spec", "carv", "replay_records"]


def git(*words):
    subprocess.run(["git", *words], check=True)


def move(crate):
    specs = f"crates/{crate}/specs"
    if not os.path.isdir(f"{specs}/laws"):
        return
    to = f"crates/{crate}/proofs/Laws" if crate in MOVED else f"{specs}/Laws"
    os.makedirs(os.path.dirname(to), exist_ok=True)
    git("mv", f"{specs}/laws", f"{to}.moving")
    git("mv", f"{to}.moving", to)
    git("mv", f"{specs}/laws.antt", f"{to}.antt.moving")
    git("mv", f"{to}.antt.moving", f"{to}.antt")
    root = f"{specs}/Lib.antt"
    with open(root, encoding="utf-8") as it:
        text = it.read()
    line = "pub mod laws\n"
    assert line in text, root
    if crate in MOVED:
        with open(root, "w", encoding="utf-8") as it:
            it.write(text.replace(line, ""))
        proofs = f"crates/{crate}/proofs/Lib.antt"
        was = ""
        if os.path.exists(proofs):
            with open(proofs, encoding="utf-8") as it:
                was = it.read()
        with open(proofs, "w", encoding="utf-8") as it:
            it.write((was or "-- What is proved of the definitions.\n") + "pub mod Laws\n")
    else:
        with open(root, "w", encoding="utf-8") as it:
            it.write(text.replace(line, "pub mod Laws\n"))


def main():
    crates = sorted(os.listdir("crates"))
    for crate in crates:
        move(crate)
    for folder, dirs, names in os.walk("crates"):
        dirs[:] = sorted(d for d in dirs if d != "out")
        for name in sorted(names):
            if not name.endswith((".antt", ".rt", ".edit")):
                continue
            path = os.path.join(folder, name)
            with open(path, encoding="utf-8") as it:
                text = it.read()
            new = re.sub(r"Rattle\.(\w+)\.specs\.laws\b", lambda m: f"Rattle.{m[1]}.{'proofs' if m[1] in MOVED else 'specs'}.Laws", text)
            if name.endswith(".edit"):
                crate = path.split(os.sep)[1]
                new = re.sub(r"(?m)^file: specs/laws/", f"file: {'proofs' if crate in MOVED else 'specs'}/Laws/", new)
            else:
                crate = path.split(os.sep)[1]
                new = re.sub(r"\bspecs/laws/", f"{'proofs' if crate in MOVED else 'specs'}/Laws/", new)
            if new != text:
                with open(path, "w", encoding="utf-8") as it:
                    it.write(new)


if __name__ == "__main__":
    main()
