"""The wrong bodies in crates/*/must-fail/*.edit: read, put into the text, and judged by the log of a check.

An edit may hold several wrong bodies. Each stands under a line `# FUNCTION: what is wrong`, FUNCTION as
the prover names it without the crate (`rules::listen`, `Query::write`)."""
import hashlib
import os
import re
import subprocess

# Words of an error that says only that a proof no longer fits the text.
SHAPE = re.compile(r'that can be named|this is applied to an argument|has no field|is not in scope|is not defined|does not exist|no constructor|has no `')
WAITS = 'was not admitted'
FALSE = 'false at some values'


class Body:
    """A wrong body: its function, what is wrong, its line, and its pairs (line, file, old, new)."""

    def __init__(self, function, wrong, line, pairs):
        self.function, self.wrong, self.line, self.pairs = function, wrong, line, pairs

    def __str__(self):
        return f'{self.function}: {self.wrong}'


def bodies(edit):
    """The wrong bodies of an edit. Where several functions stand above one text, each has that text's pairs."""
    found, path, old, begun = [], '', None, False
    with open(edit, encoding='utf-8') as it:
        for number, line in enumerate(it.read().split('\n'), 1):
            said = re.match(r'# (\w+(?:::\w+)*): (.+)', line)
            if said:
                found.append(Body(*said.groups(), number, found[-1].pairs if begun else []))
                begun = True
                continue
            begun = False
            if line.startswith('file: '):
                path = line[6:].strip()
            elif line.startswith('old: '):
                old = line[5:]
            elif line.startswith('new:') and found and path and old:
                found[-1].pairs.append((number - 1, path, old, line[4:].removeprefix(' ')))
                old = None
            elif line.strip():
                found.append(Body('', f'not read: {line}', number, []))
    return found


def apply(chosen, crate):
    """(the texts that the bodies make of the files of the crate's folder, the pairs that don't fit)"""
    texts, lost, done = {}, [], []
    for body in chosen:
        if not body.pairs:
            lost.append((body, (body.line, '', '', ''), 0))
        for pair in body.pairs:
            if pair in done:
                continue
            done.append(pair)
            _, path, old, new = pair
            if path not in texts:
                if not os.path.isfile(f'{crate}/{path}'):
                    lost.append((body, pair, 0))
                    continue
                with open(f'{crate}/{path}', encoding='utf-8') as it:
                    texts[path] = it.read()
            found = texts[path].count(old)
            if found == 1:
                texts[path] = texts[path].replace(old, new)
            else:
                lost.append((body, pair, found))
    return texts, lost


REFUSED, WAITING, UNFIT, EMPTY = 'refused', 'waits', 'unfit', 'shows nothing'


def judge(crate, function, log):
    """(how the prover takes this function, the goal or the reason): refused at a fact, waiting for another
    function, unfit where its proof only names what is gone, or else empty."""
    verdict = re.search(rf'^fn {crate}::{function}: (.*)', log, re.M)
    if not verdict:
        compiled = re.search(r'^.*error\[[\w-]+\].*', log, re.M)
        return EMPTY, compiled.group(0).strip() if compiled else 'the log has no verdict on it'
    said = verdict.group(1)
    if said == 'proved':
        return EMPTY, 'NOT REFUSED'
    search = re.search(r'`search` did not prove (`[^;]*)', said)
    if search:
        goals = re.findall(r'`([^`]+)`', search.group(1))
        false = [it for it in goals if re.search(rf'\(`{re.escape(it)}`\); the facts known there allow values at which', log)]
        return REFUSED, f'{false[0]}, {FALSE}' if false else ', '.join(goals)
    folder = re.escape('proofs/' + function.replace('::', '/') + '/')
    # an error goes on over the lines that are set in
    errors = re.findall(rf'^(?:\./)?{folder}([^/\s]+: error: .*(?:\n[ \t].*)*)', log, re.M)
    facts = [it for it in errors if WAITS not in it and not SHAPE.search(it)]
    if facts:
        goal = re.search(r'error: `([^`]+)`', facts[0])
        return REFUSED, goal.group(1) if goal else ' '.join(facts[0].split())[:120]
    if 'which is not proved' in said or 'which are not proved' in said:
        return WAITING, said
    unfit = [it for it in errors if WAITS not in it]
    return UNFIT if unfit else EMPTY, ' '.join((unfit or errors or [said])[0].split())[:240]


def said(path):
    """A file but for its comments, and an .antt file but for its imports."""
    with open(path, encoding='utf-8') as it:
        lines = it.read().split('\n')
    left_out = r'\s*--|use ' if path.endswith('.antt') else r'\s*//'
    return '\n'.join(line for line in lines if not re.match(left_out, line))


def below(crate):
    """The crates of the repository that a crate stands on, by crates.txt."""
    with open('crates.txt', encoding='utf-8') as it:
        lines = [line.split('#')[0].split(':') for line in it]
    needs = {line[0].split()[0]: line[1].split() for line in lines if len(line) == 2}
    found, left = set(), [crate]
    while left:
        for name in needs.get(left.pop(), []):
            if name in needs and name not in found:
                found.add(name)
                left.append(name)
    return sorted(found)


def sum_of(crate):
    """A sum of the code and definitions of the crate and of those below it, of its edits and of the kit:
    that a wrong body breaks its contract doesn't rest on the right one's proof."""
    sum = hashlib.sha256(subprocess.run(['rt', 'version'], stdout=subprocess.PIPE, check=True).stdout)
    parts = [f'{name}/{part}' for name in below(crate) for part in ('src', 'specs')]
    for part in parts + [f'{crate}/{part}' for part in ('src', 'specs', 'must-fail')]:
        for at, folders, files in os.walk(f'crates/{part}'):
            folders.sort()
            for name in sorted(files):
                sum.update(f'{at}/{name}\n{said(f"{at}/{name}")}\n'.encode())
    return sum.hexdigest()


def record(crate, sum, refused):
    """Writes down the goals at which the crate's wrong bodies were refused."""
    os.makedirs('tests/refused', exist_ok=True)
    with open(f'tests/refused/{crate}.txt', 'w', encoding='utf-8') as it:
        it.write(f'{sum}\n')
        it.writelines(f'{label}: {body}: {goal}\n' for label, body, goal in refused)


def recorded(crate):
    """(the sum, the lines) of what was written down, or None"""
    path = f'tests/refused/{crate}.txt'
    if not os.path.isfile(path):
        return None
    with open(path, encoding='utf-8') as it:
        sum, *lines = it.read().splitlines() or ['']
    return sum, lines
