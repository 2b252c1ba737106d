#!/usr/bin/env python3
"""Rewrites text that was made on the names of commit c5e0618 (crates carv_registry and carv_board) to those of 5fa115f.

That is the last commit before the port to today's Rattle: docs/PORT.md says how its names and files became today's.

    tools/renamed.py < old.patch > new.patch     a patch: paths, modules and words, file by file
    tools/renamed.py --file PATH < old > new     one file that stood at PATH then
    tools/renamed.py --tree                      the tree of c5e0618 itself: moves and rewrites its files (done once)

What it can't rewrite is what was written anew since, and definitions that moved to another file: apply the result with
`git apply --3way`. It goes once document 02's requests have landed.
"""
import pathlib
import re
import subprocess
import sys

CRATES = {'carv_registry': 'carv_objects_spec', 'carv_board': 'carv_scheduler_spec'}
# The modules that hold theorems, or serve proofs only: they stand in specs/laws now, some under another name.
LAWS = {
    'carv_budget': 'Edges Laws>Account Refines',
    'carv_registry': 'SoundFacts SoundLaws Steps Kept Refines History Demand2 Questions Edges BelowLaws>Within TotalsLaws>Totals',
    'carv_board': 'SoundFacts Reading SoundLaws Steps Switching Kept Questions Refines Following History Demand2 Demand3 Edges',
    'carv_objects': 'Rows Formed AreaSteps AreaLaws SoundWalk SoundPlace SoundTurn SoundBridge AreaExact Booked Calls CallSteps Cpu Opening Entry',
    'carv_scheduler': 'Rows Formed AreaSteps Room AreaLaws AreaExact Calls RowWords Places CallSteps OnRegistry Entry Opening Waking Ticking Walk '
        'Planning PlanSteps ExitSteps KillSteps ImageSteps>ImageCall SoundWalk SoundThread SoundRows SoundStates SoundQueue SoundLog SoundBridge',
    'carv': 'Reporting',
}
LAWS = {crate: dict((m.split('>') * 2)[:2] for m in modules.split()) for crate, modules in LAWS.items()}


def word(old, new):
    """A rule for a whole name; names hold letters, digits, - and ′."""
    return re.compile(r"(?<![\w\-·])%s(?![\w\-′])" % old), new


def rules(*pairs):
    return [word(*p) for p in pairs]


# Words, by the crates in whose files they are rewritten.
# P1 landed with `within` for what the patterns call `below`.
OF_P1 = rules((r'below(?= r)', 'within'), (r'specs\.Below', 'specs.Within'), (r'\{meets, below\}', '{meets, within}'), (r'(?<=Within\.)\{below\}', '{within}')) + rules(
    *(('below-' + n, 'within-' + n) for n in 'step root self le trans'.split()), ('carried-below', 'carried-within'), ('root-above', 'within-the-root'))
OF_REGISTRY = OF_P1 + rules(('Answers', 'RegistryReply'), ('answers', 'replies'), ('rust-answers', 'rust-replies'), ('answers-rust', 'replies-rust'))
OF_BOARD = OF_P1 + rules((r'registry\.Answers', 'registry.RegistryReply'), ('Answers', 'BoardReply'), ('answers', 'replies'), ('rust-answers', 'rust-replies'),
    ('answers-rust', 'replies-rust'), ('Payer', 'BudgetId'), ('no-payer', 'no-budget-id'), ('payer-at', 'budget-id-at'), ('payer-id', 'budget-named'),
    ('read_payer', 'read_budget_id'), ('read-payer', 'read-budget-id'), (r'\(payer budget\)', '(budget-id budget)'), (r'\(payer i\)', '(budget-id i)'),
    ('Space', 'Spaces'), ('no-space', 'no-spaces'), ('in-space', 'in-spaces'), ('space-at', 'spaces-at'), ('set-place', 'set-spaces'),
    ('write_place', 'write_spaces'), ('write-place', 'write-spaces'), ('read_space', 'read_spaces'), ('read-space', 'read-spaces'), ('no-place', 'no-spaces'),
    ('place-shown', 'spaces-shown'), ('figure', 'word')) + [
    (re.compile(r'\.place (?=\.(?:is|space|cspace|root)\b)'), '.spaces '), (re.compile(r'\b(t|it) \.place\b'), r'\1 .spaces'),
    (re.compile(r'\bplace = (?=no-space|in-space|t \.|s;|record \{ is|spaces-at)'), 'spaces = '),
    (re.compile(r'\bread-payer-(spec|requires)'), r'read-budget-id-\1'), (re.compile(r'\bread-space-(spec|requires)'), r'read-spaces-\1'),
    (re.compile(r'\bwrite-place-(spec|requires)'), r'write-spaces-\1'), (re.compile(r'\bFigure(?=\()|\bFigure(?=[,}])'), 'Word'), (re.compile(r'\bFigure n\b'), 'Word n')]
EVERYWHERE = rules(('Figures(?= a\\)|\\(account\\)|\\(Account\\)|, Charge)', 'AccountOf'), (r'registry-answer\.Figures', 'registry-answer.AccountOf'))
FOLLOWS = {'carv_registry': [word('Follows', 'FollowsRegistry')],
    'carv_board': [word(r'registry-history\.Follows', 'registry-history.FollowsRegistry'), word('Follows', 'FollowsBoard')],
    'carv': [word('Follows', 'LentAlone')]}


NUMBERS = 'unsound share tick code id full missing state root pays charge limit kind backing'.split()


def argument_end(line, i):
    """Where the argument that begins at i ends: a name, or what stands in brackets. None if it doesn't end on the line."""
    if line[i] != '(':
        m = re.compile(r"[\w\-′«».]+").match(line, i)
        return m and m.end()
    depth = 0
    for j in range(i, len(line)):
        depth += (line[j] in '({') - (line[j] in ')}')
        if depth == 0:
            return j + 1
    return None


def accepts(line):
    """`accept` lost its third argument, the state before; at the end of a `do` block it is `finish`."""
    out, i = '', 0
    for m in re.finditer(r'(?<![\w-])accept(?= )', line):
        ends, j = [], m.end()
        while len(ends) < 3 and j + 1 < len(line) and line[j] == ' ' and line[j + 1] not in ')≡→×∙;,\n':
            if line[j + 1] == '{':
                j = line.index('}', j) + 1
                continue
            j = argument_end(line, j + 1)
            if j is None:
                break
            ends.append(j)
        if len(ends) == 3:
            out, i = out + line[i:ends[1]], ends[2]
        elif line[:m.start()].strip() == '':
            out, i = out + line[i:m.start()] + 'finish', m.end()
    return out + line[i:]


def moved(path):
    """Where a file of c5e0618 stands now."""
    m = re.match(r'crates/(\w+)/(.*)$', path)
    if not m:
        return path
    crate, rest = m[1], m[2]
    spec = re.match(r'specs/(\w+)\.antt$', rest)
    if spec and spec[1] in LAWS.get(crate, {}):
        rest = 'specs/laws/%s.antt' % LAWS[crate][spec[1]]
    rest = rest.replace('proofs/rows/read_payer', 'proofs/rows/read_budget_id').replace('proofs/rows/read_space', 'proofs/rows/read_spaces')
    rest = rest.replace('proofs/rows/write_place', 'proofs/rows/write_spaces').replace('proofs/write_figures', 'proofs/write_account')
    return 'crates/%s/%s' % (CRATES.get(crate, crate), rest)


def line_rewritten(line, path):
    crate = (re.match(r'crates/(\w+)/', path) or [None, ''])[1]
    board = crate in ('carv_board', 'carv_scheduler', 'carv', 'replay_board')
    code = path.endswith(('.antt', '.rt'))
    if code:
        for law_crate, modules in LAWS.items():
            line = re.sub(r'(Rattle·%s(?:·specs)?\.specs)\.(%s)\b' % (law_crate, '|'.join(modules)), lambda m: '%s.laws.%s' % (m[1], modules[m[2]]), line)
        of = OF_REGISTRY if crate in ('carv_registry', 'carv_objects') else OF_BOARD if board else []
        head, mark, comment = line.partition('--' if path.endswith('.antt') else '//')
        for pattern, new in of + EVERYWHERE + FOLLOWS.get(crate, []):
            head = pattern.sub(new, head)
        if re.match(r'(ghost )?use .*carv_board.*\.Scheduler\.\{', head):
            head = re.sub(r'(?<![\w-])payer(?![\w-])', 'budget-id', head)
        line = head + mark + comment
        if '/specs/' in path and not line.startswith('use '):
            line = accepts(line)
        if re.search(r'specs/(Registry|Scheduler)\.antt$', path):
            line = re.sub(r'\bask (\d+) ', lambda m: 'ask refused.%s ' % NUMBERS[int(m[1]) - 1] if int(m[1]) <= len(NUMBERS) else m[0], line)
        if '/specs/' in path and crate != 'carv_area' and crate != 'carv_budget' or path.endswith('ticking.rt'):
            line = re.sub(r' \.now\b', ' .after', line)
            line = re.sub(r'; now = |^(\s+)now = (?=λ)', lambda m: '; after = ' if m[0][0] == ';' else m[1] + 'after = ', line)
            line = re.sub(r'^(\s+)pub now :', r'\1pub after :', line)
        if re.search(r'specs/(SoundFacts|Steps|SoundLaws)\.antt$', path) and crate == 'carv_board':
            line = re.sub(r'(?<![\w-])place(?![\w-])', 'spaces', line)
        if path.endswith('.rt') and board and re.search(r'(rows|carv/src/lib|carv_board/src/lib|calls)\.rt$', path):
            head, slash, comment = line.partition('//')
            line = re.sub(r'\bplace\b', 'spaces', head) + slash + comment
    line = re.sub(r'\b(%s)\b' % '|'.join(CRATES), lambda m: CRATES[m[1]], line)
    return re.sub(r'crates/\w+/specs/\w+\.antt', lambda m: moved_back(m[0]), line)


def moved_back(path):
    """A path in running text: its crate's name is new already."""
    old = {new: was for was, new in CRATES.items()}
    return moved(re.sub(r'^crates/(\w+)', lambda m: 'crates/' + old.get(m[1], m[1]), path))


def patch(lines):
    path = ''
    for line in lines:
        head = re.match(r'(diff --git a/|--- a/|\+\+\+ b/|rename from |rename to )(.*)$', line)
        if head:
            if head[1].startswith('diff'):
                a, b = head[2].split(' b/')
                path = b
                yield 'diff --git a/%s b/%s\n' % (moved(a), moved(b))
            else:
                yield head[1] + moved(head[2].rstrip('\n')) + '\n'
        elif line[:1] in '+- ' and path:
            yield line[0] + line_rewritten(line[1:], path)
        else:
            yield line


def tree():
    root = pathlib.Path(__file__).resolve().parent.parent
    files = subprocess.run(['git', '-C', str(root), 'ls-files'], text=True, capture_output=True, check=True).stdout.split('\n')
    for path in filter(None, files):
        if path.startswith('tools/renamed') or path.endswith(('.svg', '.lock')) or '/stdin' in path:
            continue
        old, new = root / path, root / moved(path)
        text = old.read_text()
        text = ''.join(line_rewritten(line, path) for line in text.splitlines(keepends=True))
        if new != old:
            new.parent.mkdir(parents=True, exist_ok=True)
            subprocess.run(['git', '-C', str(root), 'mv', path, moved(path)], check=True)
        new.write_text(text)


def main():
    if sys.argv[1:] == ['--tree']:
        tree()
    elif len(sys.argv) == 3 and sys.argv[1] == '--file':
        sys.stdout.writelines(line_rewritten(line, sys.argv[2]) for line in sys.stdin)
    elif len(sys.argv) == 1:
        sys.stdout.writelines(patch(sys.stdin))
    else:
        sys.exit(__doc__)


if __name__ == '__main__':
    main()
