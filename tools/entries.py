#!/usr/bin/env python3
"""Writes the board's entry points and C functions, or checks those that stand there.

    tools/entries.py ANSWERS
    tools/entries.py --check

The first writes the entry points of carv_scheduler (src/lib.rt), the functions of carv (src/lib.rt) and the C functions of carv_c
(src/lib.rt), for the calls listed below, and the answers by which tools/prove.py proves those of carv. In carv_scheduler and carv
everything from the marker line to the end is replaced, in carv_c everything from its first C function on; what stands above is kept, and
so are lines #[tactic(..)] of a function. A call: name, parameters after the area, definition, module of the inner function, does it only
read, type of its answer, what value this tells (specs/Answer.antt of carv_objects for the registry's calls, else of carv_scheduler),
comment. Parameters of a struct's type are numbers in carv.

The second writes nothing. It prints each function below a marker, and each of carv_c, that is not as it would be written, is missing or
too much, and each of these disagreements between the functions of carv and `Ensures` in carv/specs/C.antt:

    a constructor of a `Call` (Book.antt of carv_objects_spec, carv_scheduler_spec) without a function, or with more than one
    a function of the list whose `ensures` isn't `Exported` of the constructor that the list names
    `ExportedWithImage`, or true by `has_image`, of another call than `carv_create_user_thread`'s, which is written by hand
    another function without `Exported`; carv_open, carv_image and carv_is_sound have contracts of their own

Exit status: 0 if there is none, else 1.
"""
import collections
import pathlib
import re
import sys

ROOT = pathlib.Path(__file__).resolve().parent.parent
REGISTRY, CALLS = 'registry', [
    ('create', 'kind: u64, payer: u64, backing: bool', 'create', 'registry', False, 'u64', 'id_of', 'A new object of this kind.'),
    ('insert', 'kind: u64, payer: u64, bytes: u64', 'insert', 'registry', False, 'u64', 'id_of', 'An object of this kind that takes this many bytes.'),
    ('create_budget', 'parent: u64, cpu: u64, memory: u64, time: u64', 'create_budget', 'registry', False, 'u64', 'id_of', 'A budget carved out of its parent.'),
    ('charge_more', 'id: u64, bytes: u64', 'charge_more', 'registry', False, '()', 'nothing', 'More bytes charged for an object.'),
    ('uncharge', 'id: u64, bytes: u64', 'uncharge', 'registry', False, '()', 'nothing', 'Bytes of an object credited.'),
    ('remove', 'id: u64, time: u64', 'remove', 'registry', False, '()', 'nothing', "An object taken out; a removed budget's payer is renewed at this time, before the child is returned."),
    ('refill', 'id: u64, time: u64', 'refill', 'registry', False, 'bool', 'renewed_of', 'The renewal of a budget.'),
    ('charge_cpu', 'id: u64, ns: u64, time: u64', 'charge_cpu', 'registry', False, '()', 'nothing', 'CPU time charged to a budget.'),
    ('pays_for_anything', 'id: u64', 'pays_for_anything', 'registry', True, 'bool', 'pays_of', 'Does another object have this payer?'),
    ('account', 'id: u64', 'read_account', 'registry', True, 'Account', 'account_of', 'The account of a budget.'),
    ('charge_of', 'id: u64', 'charge_of', 'registry', True, 'Charge', 'charge_of', 'The payer and the charge of an object.'),
    ('totals', 'id: u64', 'read_totals', 'registry', True, 'Totals', 'totals_of', 'A budget with all below it, summed.'),
    ('start', 'id: u64, space: u64, cspace: u64, root: u64, context: Context', 'start', 'calls', False, '()', 'nothing', 'An Inactive thread is Ready.'),
    ('block_current', 'kind: u64, number: u64', 'block_current', 'calls', False, '()', 'nothing', 'The current thread is Blocked on this wait.'),
    ('wake', 'id: u64, results: Results', 'wake', 'ticking', False, '()', 'nothing', 'A Blocked thread is Ready, with these results.'),
    ('is_blocked_on', 'id: u64, kind: u64, number: u64', 'is_blocked_on', 'calls', True, 'bool', 'blocked_of', 'Is this thread Blocked on this wait?'),
    ('kill', 'id: u64, cause: u64', 'kill', 'killing', False, 'Option<Wait>', 'ended_of', 'A thread ends.'),
    ('tick', 'n: u64', 'tick', 'ticking', False, '()', 'nothing', 'The timer tick n.'),
    ('plan', 'n: u64', 'plan', 'planning', False, 'Option<Switch>', 'switch_of', 'The thread to run at tick n.'),
    ('read_thread', 'id: u64', 'read_thread', 'calls', True, 'Thread', 'thread_of', "A thread's record."),
    ('current', '', 'read_current', 'calls', True, 'u64', 'word_of', 'The current thread.'),
    ('switches', '', 'read_switches', 'calls', True, 'u64', 'word_of', 'How many context switches there were.'),
    ('exit_of', 'id: u64', 'exit_of', 'exits', True, 'Option<Cause>', 'cause_of', 'Why a thread ended, by the exit log.'),
]
STRUCTS = {
    'Context': ['rip', 'rsp', 'rflags', 'rdi', 'rsi', 'cs', 'ss'],
    'Results': ['first', 'second', 'third'],
}
WRITTEN = '// Written by tools/entries.py from its list of calls; what stands below this line is replaced.\n'
LIB_MARK = '// The calls, each with question 1 in front, and so with kinds, waits and causes as codes: question 4 stands behind it.\n' + WRITTEN
C_MARK = '// The calls.\n' + WRITTEN
EXPORT = '#[unsafe(no_mangle)]\npub extern "C" fn '
# The functions of carv written by hand: the one that is lent an image, and the contracts of the others.
WITH_IMAGE = ('carv_create_user_thread', 'create_user_thread')
OWN = {'carv_open': 'Opens ', 'carv_image': 'Filled ', 'carv_is_sound': 'result ≡ sound_area '}


def signature(head, params, result):
    one = '%s(%s) -> %s\n' % (head, ', '.join(params), result)
    if len(one) <= 101:
        return one
    return '%s(\n%s) -> %s\n' % (head, ''.join('    %s,\n' % p for p in params), result)


def literal(struct, fields):
    one = '%s { %s }' % (struct, ', '.join(fields))
    if len(one) <= 30:
        return one
    return '%s {\n%s    }' % (struct, ''.join('        %s,\n' % f for f in fields))


def argument(term):
    return '(%s)' % term if ' ' in term else term


def entry(name, params, definition, module, reading, answer, tells, comment):
    names = [p.split(':')[0] for p in params]
    call = ' '.join([definition] + names)
    spec = 'by_registry (%s)' % call if module == REGISTRY else call
    told = 'in_board told.%s' % tells if module == REGISTRY else tells
    before, left = ('now', 'now') if reading else ('old', 'new')
    text = '\n// %s\n' % comment
    text += signature('pub fn ' + name, ['area: &[u8]' if reading else 'area: &mut [u8]'] + params, 'Result<%s, Refusal>' % answer)
    text += '    ensures { Answered %s %s area.%s result area.%s }\n' % (argument(spec), argument(told), before, left)
    text += '{\n    ask_sound(area)?;\n    %s::%s(%s)\n}\n' % (module, name, ', '.join(['area'] + names))
    return text, ''


def c_function(name, params, definition, module, reading, answer, tells, comment):
    numbers, given, made, terms = [], [], '', []
    for p in params:
        n, kind = p.split(': ')
        given.append(n)
        if kind in STRUCTS:
            fields = STRUCTS[kind]
            numbers += ['%s: u64' % f for f in fields]
            made += '    let %s = %s;\n' % (n, literal(kind, fields))
            terms.append('(record { %s })' % '; '.join('%s = %s' % (f, f) for f in fields))
        else:
            numbers.append(p)
            terms.append(n)
    call = ' '.join([definition] + terms)
    spec = 'on_objects (objects.%s)' % call if module == REGISTRY else call
    before, left = ('now', 'now') if reading else ('old', 'new')
    text = '\n' + signature('pub fn carv_' + name, ['area: &[u8]' if reading else 'area: &mut [u8]'] + numbers + ['out: &mut [u64]'], 'u64')
    text += '    ensures { Exported %s area.%s out.old result area.%s out.new }\n' % (argument(spec), before, left)
    asked = '&mut || carv_scheduler::%s(%s)' % (name, ', '.join(['area'] + given))
    text += '{\n%s    answered(%s)\n}\n' % (made, 'out, ' + asked if len(asked) <= 55 else '\n        out,\n        %s,\n    ' % asked)
    told = 'in_board told.%s' % tells if module == REGISTRY else tells
    answers = '== carv_%s\nuse Rattle.std.proofs.Common.{refl, of_calls}\n' % name
    if module == REGISTRY:
        answers += 'use Rattle.carv_objects.specs.Answer as told\nuse Rattle.carv_scheduler.specs.Answer.{in_board}\n'
    else:
        answers += 'use Rattle.carv_scheduler.specs.Answer.{%s}\n' % tells
    answers += 'use Rattle.carv.proofs.Laws.Reporting.{called}\n'
    answers += 'returns := called {tells = %s} (λ x. refl) (λ q. search rules) (λ q. search (rules, of_calls))\n' % told
    return text, answers


def export(piece):
    """The C function of a function of carv: the same clauses, and a call of it."""
    name, params, result, clauses = re.search(r'(?ms)^pub fn (\w+)\((.*?)\) -> (\w+)\n(.*?)^\{\n', piece).groups()
    params = [p.strip() for p in params.strip().rstrip(',').split(',')]
    head, rest = EXPORT.rsplit('\n', 1)
    given = ', '.join(p.split(':')[0] for p in params)
    call = 'carv::%s(%s)' % (name, given if len(given) <= 60 else '\n        %s,\n    ' % given)
    return '\n%s\n%s%s{\n    %s\n}\n' % (head, signature(rest + name, params, result), clauses, call)


def generated(crate, mark, make):
    """The file, its text above the marker line, below it, and what is written below it: each call's text and answers."""
    path = ROOT / 'crates' / crate / 'src/lib.rt'
    above, found, below = path.read_text().partition(mark)
    if not found or mark in below:
        sys.exit('%s: not once there: %r' % (path, mark))
    return path, above, below, [make(name, [p for p in params.split(', ') if p], *rest) for name, params, *rest in CALLS]


def functions(text):
    """Name and whole text of each function, in order; a last one without a name is what stands behind them."""
    pieces = [piece for piece in re.split(r'(?m)(?<=^\}\n)', text) if piece]
    return [((re.search(r'(?m)^(?:pub )?(?:extern "C" )?fn (\w+)', piece) or [None, ''])[1], piece) for piece in pieces]


TACTIC = re.compile(r'(?m)^#\[tactic\(.*\)\]\n')


def with_tactics(written, below):
    """The text that is written, with the lines #[tactic(..)] of the functions that stand there."""
    kept = {name: TACTIC.findall(piece) for name, piece in functions(below)}
    return ''.join(re.sub(r'(?m)^(?=pub )', ''.join(kept.get(name, [])), piece, count=1) for name, piece in functions(written))


def differences(path, below, wanted):
    """What stands below the marker line and isn't what would be written."""
    where, there = path.relative_to(ROOT), collections.defaultdict(list)
    for name, piece in functions(below):
        there[name].append(TACTIC.sub('', piece))
    wanted = dict(functions(wanted))
    for name, piece in wanted.items():
        if name not in there:
            yield '%s: %s: missing' % (where, name)
        elif len(there[name]) > 1:
            yield '%s: %s: there %d times' % (where, name, len(there[name]))
        elif there[name] != [piece]:
            yield '%s: %s: not as it is written from the list' % (where, name)
    for name in there:
        if name not in wanted:
            yield '%s: %s: not of the list' % (where, name or 'the text behind the last function')
    if sorted(there) == sorted(wanted) and list(there) != list(wanted):
        yield '%s: not in the order of the list' % where


def exports(code):
    """The file of the C functions, its text above the first of them, below, and what is written below for carv's code."""
    path = ROOT / 'crates/carv_c/src/lib.rt'
    above, found, below = path.read_text().partition('\n' + EXPORT)
    if not found:
        sys.exit('%s: no C function' % path)
    return path, above, found + below, ''.join(export(piece) for name, piece in functions(code) if re.search(r'(?m)^pub fn carv_', piece))


def constructors():
    """The calls: constructors of both `Call`s, those of the registry with the name in front by which the contracts cite it."""
    found = []
    for crate, front in (('carv_objects_spec', 'objects.'), ('carv_scheduler_spec', '')):
        text = (ROOT / 'crates' / crate / 'specs/Book.antt').read_text()
        cases = re.search(r'(?m)^pub data Call : Type 0 where\n((?:  .*\n)+)', text)
        if not cases:
            sys.exit('%s/specs/Book.antt: no `data Call`' % crate)
        found += [front + name for name in re.findall(r'(?m)^  ([^ ]+) :', cases[1]) if name != 'on_objects']
    return found


def contracts():
    """Each function of carv with its `ensures`, its predicate and the call that this is said of, None for another contract."""
    for name, piece in functions((ROOT / 'crates/carv/src/lib.rt').read_text()):
        if re.search(r'(?m)^pub fn ', piece):
            ensures = (re.search(r'(?m)^    ensures \{ (.*) \}$', piece) or [None, ''])[1]
            said = re.match(r'(Exported|ExportedWithImage) \(?(?:on_objects \()?([^ ()]+)', ensures)
            yield name, ensures, said and said[1], said and said[2]


def disagreements():
    """Where the functions of carv, the list, the constructors of `Call` and `has_image` don't agree."""
    calls, found = constructors(), list(contracts())
    listed = {'carv_' + name: ('Exported', ('objects.' if module == REGISTRY else '') + definition) for name, _, definition, module, *_ in CALLS}
    listed[WITH_IMAGE[0]] = ('ExportedWithImage', WITH_IMAGE[1])
    for name, count in collections.Counter(call[0] for call in CALLS).items():
        if count > 1:
            yield '%s: %d times in the list of calls' % (name, count)
    for name, ensures, predicate, call in found:
        if name in OWN:
            if not ensures.startswith(OWN[name]):
                yield '%s: its contract is not %s' % (name, OWN[name].strip())
        elif name not in listed:
            yield '%s: not of the list of calls' % name
        elif (predicate, call) != listed[name]:
            yield '%s: ensures %s, not %s (%s)' % (name, '%s (%s)' % (predicate, call) if predicate else 'neither', *listed[name])
        if call and call not in calls:
            yield '%s: there is no call %s' % (name, call)
    for name in sorted({*listed, *OWN}):
        if (count := sum(name == f[0] for f in found)) != 1:
            yield '%s: %d C functions of this name' % (name, count)
    for call in calls:
        if len(names := [f[0] for f in found if f[3] == call]) != 1:
            yield 'call %s: %s' % (call, 'no C function' if not names else 'more than one C function: ' + ', '.join(names))
    demands = (ROOT / 'crates/carv/specs/C.antt').read_text()
    image = re.findall(r'(?m)^has_image \(?([^ ()]+).* = true$', demands)
    if image != [WITH_IMAGE[1]]:
        yield 'has_image: true of %s, not of %s alone' % (', '.join(image) or 'no call', WITH_IMAGE[1])


def check():
    found = []
    for crate, mark, make in (('carv_scheduler', LIB_MARK, entry), ('carv', C_MARK, c_function)):
        path, _, below, made = generated(crate, mark, make)
        found += differences(path, below, ''.join(text for text, _ in made))
    path, _, below, written = exports((ROOT / 'crates/carv/src/lib.rt').read_text())
    found += [*differences(path, below, written), *disagreements()]
    print(''.join(line + '\n' for line in found) + '%d calls, %d differences' % (len(constructors()), len(found)))
    return 1 if found else 0


def main():
    if sys.argv[1:] == ['--check']:
        return check()
    if len(sys.argv) != 2:
        sys.exit(__doc__)
    told = []
    for crate, mark, make in (('carv_scheduler', LIB_MARK, entry), ('carv', C_MARK, c_function)):
        path, above, below, made = generated(crate, mark, make)
        path.write_text(above + mark + with_tactics(''.join(text for text, _ in made), below))
        told += [answers for _, answers in made]
    path, above, below, written = exports((ROOT / 'crates/carv/src/lib.rt').read_text())
    path.write_text(above + with_tactics(written, below))
    pathlib.Path(sys.argv[1]).write_text(''.join(told))
    return 0


if __name__ == '__main__':
    sys.exit(main())
