#!/usr/bin/env python3
"""Looks up the names that docs/PROMISES.md cites, and prints each that is not in the tree, and each must-fail edit that no row names.

    tools/promises.py [ROOT]

ROOT is the repository, by default the folder above tools/. Exit status: 0 if nothing is missing, else 1. Read are the backticked
names from the section "Demands" on; the columns "01 says" and "02 says" are left out, as they have the Rust's names. Looked up are

    File.name, scheduler/File.name     in specs/ or Laws/ (of specs/ or proofs/), File.antt of carv_objects_spec or carv_objects, carv_scheduler_spec or
                                       carv_scheduler; so are names in brackets
    carv/File.name                     in such a file of carv; register_image/File.name in that of carv_register_image
    scheduler/File, carv/File, register_image/File     that there is such a file
    rust.name, some_name               in specs/ and Laws/ of carv_budget; some_name may also be a crate, or a function, field or argument of any
                                       src/ or of host/, which decides nothing
    module::f, scheduler/module::f     in src/module.rt of carv_objects, carv_scheduler
    objects::f, scheduler::f           in src/lib.rt there, or passed on by it; carv_area::f, carv_register_image::f, carv::f in these
    Type::name, struct T, enum T       in any src/; carv_name in carv; Mistake::X in host/board/tests/mistakes.rs
    objects/edit, objects_spec/edit .. in must-fail/ of the crate; bare names of the last column in carv_budget's
    replay_x, "x word" in "run by"     a program; the names behind "Rust:" there in host/oracle/tests, those behind a host/file.rs: tests in it
    file.rt, a/path                    in any src/; from ROOT, crates/ or crates/carv_budget/
    first column of the last section   a public function of the crate that the line above the table names

Skipped, as they can't be decided: other bare words (types, fields, arguments, values, File alone), and whether a name that is
there says what its row claims.
"""
import functools
import pathlib
import re
import sys

ROOT = pathlib.Path(sys.argv[1] if len(sys.argv) > 1 else pathlib.Path(__file__).resolve().parent.parent)
CRATE = {None: 'carv_objects', 'carv_c': 'carv_c', 'objects': 'carv_objects', 'objects_spec': 'carv_objects_spec', 'scheduler': 'carv_scheduler', 'carv': 'carv', 'scheduler_spec': 'carv_scheduler_spec', 'area': 'carv_area', 'carv_area': 'carv_area', 'register_image': 'carv_register_image', 'carv_register_image': 'carv_register_image', 'replay_records': 'replay_records', 'replay_accounts': 'replay_accounts', 'replay_objects': 'replay_objects', 'replay_board': 'replay_board'}
SPECS = {None: 'carv_objects*', 'scheduler': 'carv_scheduler*', 'carv': 'carv', 'register_image': 'carv_register_image'}
TICKED = re.compile(r'`([^`]+)`')


@functools.cache
def text(*patterns):
    return '\n'.join(p.read_text() for pattern in patterns for p in sorted(ROOT.glob(pattern)))


def has(pattern, source):
    return re.search(pattern, source, re.M) is not None


def exists(*patterns):
    return any(True for pattern in patterns for _ in ROOT.glob(pattern))


def stands(crate, file):
    """Where a file of definitions or theorems of a crate may stand."""
    return ['crates/%s/%s%s.antt' % (crate, folder, file) for folder in ('specs/', 'specs/Laws/', 'proofs/Laws/')]


def defined(name, files):
    return has(r'^ *(?:(?:abbrev|unfoldable|pub|record|data) +)*%s(?: *$| *[:({])' % re.escape(name), text(*files))


BUDGET = stands('carv_budget', '*')


def of_accounts(name):
    if defined(name, BUDGET):
        return True
    code = text('crates/*/src/**/*.rt', 'host/*/src/**/*.rs', 'host/*/tests/**/*.rs')
    return None if exists('crates/' + name) or has(r'\b(?:fn|const|mod) %s\b|\b%s: ' % (name, name), code) else False


def function(name, files, public=''):
    return has(r'\b%sfn %s\b|\bpub use \w+::%s;' % (public, name, name), text(files))


def entry(crate, name):
    return function(name, 'crates/%s/src/lib.rt' % CRATE[crate])


# A form, and how a name of it is looked up.
FORMS = [(re.compile(form), look) for form, look in [
    (r'(?:(scheduler|carv|register_image)/)?([A-Z]\w*)\.(?!antt$)([^ /]+)', lambda c, f, n: defined(n, stands(SPECS[c], f))),
    (r'(scheduler|carv|register_image)/([A-Z]\w*)', lambda c, f: exists(*stands(SPECS[c], f))),
    (r'rust\.(\w+)', lambda n: defined(n, ['crates/carv_budget/specs/Rust.antt'])),
    (r'(Mistake::\w+)', lambda n: has(n + r'\b', text('host/board/tests/mistakes.rs'))),
    (r'[A-Z]\w*::(\w+)', lambda n: has(r'\b(?:fn|const) %s\b|^    %s\b' % (n, n), text('crates/*/src/*.rt'))),
    (r'(objects|scheduler|carv_area|carv_register_image|carv)::(\w+)', entry),
    (r'(?:(scheduler)/)?([a-z]\w*)::(\w+)', lambda c, m, n: function(n, 'crates/%s/src/%s.rt' % (CRATE[c], m))),
    (r'(objects|objects_spec|scheduler_spec|scheduler|carv_c|carv|area|register_image|replay_(?:records|accounts|objects|board))/([a-z]\w*)', lambda c, n: exists('crates/%s/must-fail/%s.edit' % (CRATE[c], n))),
    (r'((?:struct|enum) \w+)', lambda n: has(n + r'\b', text('crates/*/src/*.rt'))),
    (r'(carv_(?!(?:c|area|budget|objects|objects_spec|register_image|scheduler|scheduler_spec)$)\w+)', lambda n: function(n, 'crates/carv/src/lib.rt')),
    (r'(\w+\.rt)', lambda n: exists('crates/*/src/' + n)),
    (r'(replay_\w+)', lambda n: exists('crates/%s/src' % n)),
    (r'([a-z][a-z0-9]*(?:_\w+)+)', of_accounts),
    (r'([^ ]+/[^ ]+)', lambda n: any((ROOT / base / n).exists() for base in ('', 'crates', 'crates/carv_budget'))),
]]


def there(name):
    """Is it there? None where it can't be decided."""
    return next((look(*m.groups()) for form, look in FORMS if (m := form.fullmatch(name))), None)


def names(cell, column, crate):
    """The names of a cell, each with whether it is there."""
    if column == 'function':
        for name in TICKED.findall(cell):
            if re.fullmatch(r'[\w:]+', name):
                yield name, function(name.split('::')[-1], 'crates/%s/src/*.rt' % crate, 'pub (?:extern "C" )?')
        return
    if column == 'must-fail edit':
        for name in TICKED.findall(re.sub(r'\([^)]*\)', '', cell)):
            yield name, there(name) if '/' in name else exists('crates/carv_budget/must-fail/%s.edit' % name)
        return
    if column == 'run by':
        for path, tests in re.findall(r'`(host/[^`]+\.rs)`: ([^;]*)', re.sub(r'\([^)]*\)', '', cell)):
            for name in re.findall(r'`(\w+)`', tests):
                yield '%s: %s' % (path, name), has(r'#\[test\]\s+fn %s\b' % name, text(path))
        for part in re.findall(r'Rust: ([^;(]*)', cell):
            for name in TICKED.findall(part):
                yield 'Rust: ' + name, function(name, 'host/oracle/tests/*.rs')
        cell = re.sub(r'Rust: [^;]*', '', cell)
        for program in re.findall(r'`(\w+) \w+`', cell):
            yield program, exists('host/*/src/bin/%s.rs' % program)
    fields = set()
    for c, file, brackets in re.findall(r'`(?:(scheduler|carv|register_image)/)?([A-Z]\w*)\.[^`]+` \(([^)]*)\)', cell):
        for field in re.findall(r'`([a-z]\w*)`', brackets):
            fields.add(field)
            yield '%s in %s of %s' % (field, file, CRATE[c or None]), defined(field, stands(SPECS[c or None], file))
    for name in TICKED.findall(cell):
        if name not in fields:
            yield name, there(name)


def cells():
    """The cells from "Demands" on: row, column, cell, and the crate that the line above the table names."""
    crate, head = '', []
    for line in (ROOT / 'docs/PROMISES.md').read_text().partition('\n## Demands\n')[2].splitlines():
        if not line.startswith('|'):
            named = re.match(r'Of `(\w+)`', line)
            crate, head = named[1] if named else crate, []
            yield 'text', 'text', line, crate
        elif not head:
            head = line.strip('| ').split(' | ')
        elif not line.startswith('|---'):
            row = [cell.strip() for cell in line[1:-1].split(' | ')]
            if len(row) != len(head):
                sys.exit('%s: %d cells instead of %d' % (row[0], len(row), len(head)))
            yield from ((row[0], column, cell, crate) for column, cell in zip(head, row) if column not in ('#', '01 says', '02 says'))


def main():
    found, missing = set(), {}
    for row, column, cell, crate in cells():
        for name, is_there in names(cell, column, crate):
            if is_there:
                found.add(name)
            elif is_there is False:
                missing.setdefault(name, {})[row] = True
    for name, where in sorted(missing.items()):
        print('%s: not there (%s)' % (name, ', '.join(where)))
    short = {crate: name for name, crate in CRATE.items()}
    short.update({'carv_objects': 'objects', 'carv_area': 'area', 'carv_register_image': 'register_image', 'carv_budget': ''})
    edits = [(short[p.parent.parent.name] + '/' + p.stem).lstrip('/') for p in sorted(ROOT.glob('crates/*/must-fail/*.edit'))]
    unnamed = [name for name in edits if name not in found]
    for name in unnamed:
        print('%s: an edit that no row names' % name)
    print('%d names found, %d not there, %d of %d edits in no row' % (len(found), len(missing), len(unnamed), len(edits)))
    return 1 if missing or unnamed else 0


if __name__ == '__main__':
    sys.exit(main())
