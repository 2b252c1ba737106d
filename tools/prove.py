#!/usr/bin/env python3
"""Writes the answers of functions' proofs from short ones.

    tools/prove.py CRATE_DIR ANSWERS
    tools/prove.py --answers CRATE_DIR FUNCTION

The first writes proofs/FUNCTION/Answers.antt for each block of ANSWERS:

    == module/function
    use SOME.MODULE.{names}
    unfolding a b
    goal := term

Goals are those that `rt check` names, or `rt check --start FUNCTION --allow-holes`; those without an answer are tried by Rattle itself.
In a term

    @place    is the context's place of that name, as `c.find_budget`
    %arg      is the value of the parameter `arg`, `c.args.arg`
    AREA, D   are the bytes of the parameter `a` at entry, and what the crate's `decode` says of them

A term may go on in further lines. The last command prints the answers that the file of a function, as `calls/start`, comes from: when the
function has changed, change these and write the file anew.

A function with a loop asks for an invariant and a measure: they stand in Invariants.antt, which is written by hand from what
`rt check --start` prints.
"""
import os
import re
import sys

RULES = 'use borrow.Author.Rules.{rules}'


def answers(block):
    lines = block.split('\n')
    function, uses, unfolding, terms, goal = lines[0].strip(), [], '', {}, None
    for line in lines[1:]:
        if line.startswith('use '):
            uses.append(line)
        elif line.startswith('unfolding '):
            unfolding = line
        elif m := re.match(r'^(\S+) := (.*)$', line):
            goal = m.group(1)
            terms[goal] = m.group(2)
        elif goal and line.strip():
            terms[goal] += '\n' + line
    return function, uses, unfolding, terms


def expand(term):
    term = re.sub(r'%(\w+)', r'c.args.\1', term)
    term = term.replace('AREA', 'c.args.a.now')
    term = re.sub(r'\bD\b', '(decode c.args.a.now)', term)
    return re.sub(r"@([\w'-]+)", r'c.\1', term)


def fold(term):
    """The reverse of expand."""
    term = term.replace('c.args.a.now', 'AREA').replace('(decode AREA)', 'D')
    term = re.sub(r'\bc\.args\.(\w+)', r'%\1', term)
    return re.sub(r"\bc\.([\w'-]+)", r'@\1', term)


def text_of(block, crate):
    function, uses, unfolding, terms = answers(block)
    terms = {goal: expand(term) for goal, term in terms.items()}
    if any(re.search(r'\brules\b', term) for term in terms.values()) and RULES not in uses:
        uses.insert(0, RULES)
    if any('(decode ' in term for term in terms.values()) and not any('decode' in use for use in uses):
        uses.append(f'use Rattle.{crate}.specs.Area.{{decode}}')
    module = f'Rattle.{crate}.proofs.{function.replace("/", ".")}'
    out = [f'-- `{crate}::{function.replace("/", "::")}` meets its contract. Assumes nothing.', *uses, f'use {module}.Goals as goal']
    for goal, term in terms.items():
        out += ['', f'pub {goal} : goal.{goal}', *[unfolding] * bool(unfolding), f'{goal} c =', '    ' + term.replace('\n', '\n    ')]
    return function, '\n'.join(out) + '\n'


def write(block, folder):
    function, text = text_of(block, os.path.basename(os.path.normpath(folder)))
    path = f'{folder}/proofs/{function}/Answers.antt'
    os.makedirs(os.path.dirname(path), exist_ok=True)
    with open(path, 'w', encoding='utf-8') as it:
        it.write(text)
    print(f'{function}: {len(answers(block)[3])} goals')


def read_back(folder, function):
    """The block of answers that a file comes from."""
    with open(f'{folder}/proofs/{function}/Answers.antt', encoding='utf-8') as it:
        text = it.read()
    head, *goals = re.split(r'(?m)^pub (?=\S+ : goal\.)', text)
    block = [f'== {function}', *re.findall(r'(?m)^use .*$', head)]
    block = [line for line in block if line != RULES and not line.endswith('.Goals as goal')]
    unfolding = []
    for goal in goals:
        m = re.fullmatch(r'(\S+) : goal\.\1\n(?:(unfolding .*)\n)?\1 c =\n?((?:.*\n)*?)\s*', goal)
        if not m:
            sys.exit(f'{function}: the file was written by hand')
        if m[2] and m[2] not in unfolding:
            unfolding.append(m[2])
        block.append(f'{m[1]} := {fold(re.sub(r"(?m)^    ", "", m[3]).strip())}')
    if len(unfolding) > 1:
        sys.exit(f'{function}: its answers unfold different names')
    at = next((n for n, line in enumerate(block) if ' := ' in line), len(block))
    return '\n'.join(block[:at] + unfolding + block[at:])


def main():
    if len(sys.argv) == 4 and sys.argv[1] == '--answers':
        print(read_back(sys.argv[2], sys.argv[3]))
        return
    if len(sys.argv) != 3:
        sys.exit(__doc__)
    with open(sys.argv[2], encoding='utf-8') as it:
        for block in re.split(r'^== ', it.read(), flags=re.M)[1:]:
            write(block, sys.argv[1])


if __name__ == '__main__':
    main()
