#!/usr/bin/env python3
"""Tries every fault of the must-fail edits: .ci/rounds.py [CRATE/LABEL..], at the top of the repository, after `rt ci`.

rt asks of an edit only that its crate is refused. This reader asks it of every fault, and asks where and by what: it puts each crates/NAME/must-fail/LABEL.edit
into a copy of the crates in a temporary folder, checks the crate there, and reads what `rt check` says.

A round is an edit with several faults. Each is

    # The wrong register that it makes.
    at: proofs/FUNCTION/Answers.antt
    file: src/FILE.rt
    old: ..
    new: ..

with as many pairs of old and new as it needs. Its place, the `at:` line (rt passes over it), is a file of proofs/ that must be refused by an error of its
own: the answers of the function that the fault is in, or the law that a changed definition breaks. Behind the file may stand the name of the goal or law that
must be refused, as `at: proofs/FUNCTION/Answers.antt returns-then-x`: so two faults of one function stand in one round. Otherwise no two faults of a round
share a place. A function that is proved without a file has its place in the file that rt asks for when it is not.

A function's answers may leave goals to the tactics. Such a goal has its place in those answers, and is refused where the tactics prove it in the crate as it
stands and leave it open in the edited one: no less than is asked where there is no file. One that lost its answer, is new or waits for a callee does not count.

An edit without any `at:` line is one fault, and an error of its own in any file will do.

Goals and steps of a proof are named after the source (`returns-then-x-y`), so a fault in a condition would only take a name away. Therefore the answers of an
edited crate follow the edited code first: `rt check --generated --old-names` numbers the goals and steps of a function in the order of its source, and each
answer gets the name that its number has in the edited code. So the answer itself is what is refused.

An error is no fault's own where it only says that something else was refused (`was not admitted`), or that the proof no longer fits the edited code: it names
a goal that is not there (`can be named from here`), or goes a way that is not there (`has no field`, `expected a type`). Then nothing is shown to be false.
And rt tries no tactic at a function that calls one which is not proved, so a fault that its round does not show is tried once more by itself.

Prints a line for each fault and last 'N passed, M failed'; the exit status is 0 only where M is 0.
"""
import collections
import concurrent.futures
import json
import os
import pathlib
import queue
import re
import shutil
import subprocess
import sys
import tempfile

NOT_ITS_OWN = ('was not admitted', 'was rejected', 'can be named from here', 'has no field', 'expected a type', 'is not in scope')
REFUSED = re.compile(r'^logic=not-proved', re.M)
ERROR = re.compile(r'^(?:\./)?(\S+):\d+:\d+: error: (?:`([^`]*)`: )?(.*)$', re.M)
WITHOUT_FILE = re.compile(r'^fn \S+: no proof: expected answers in (?:\./)?(\S+); `search` did not prove (.*)$', re.M)
OPEN = re.compile(r'^note: \S+:\d+:\d+: it is not proved that .* \(`([^`]*)`\)', re.M)
CLAUSE = '-clause-'
OF_FUNCTION = re.compile(r'^fn (\S+): not proved', re.M)
ROOM = pathlib.Path(tempfile.mkdtemp(prefix="rounds-"))

Fault = collections.namedtuple('Fault', 'says place pairs')  # pairs of (file, old, new)


def faults_of(edit):
    """The faults of an edit's text, in order: what each says of itself, its place ('' where it has no `at:` line), and its pairs of old and new."""
    faults = [Fault('', '', ())]
    file = old = ''
    for line in edit.splitlines():
        says, place, pairs = faults[-1]
        if line.startswith(('# ', 'at: ')) and pairs:  # what stands before its pairs: the next fault begins
            faults.append(Fault('', '', ()))
            says, place, pairs = faults[-1]
        if line.startswith('# '):
            faults[-1] = Fault((says + ' ' + line[2:]).strip(), place, pairs)
        elif line.startswith('at: '):
            faults[-1] = Fault(says, (place + ' ' + line[4:]).strip(), pairs)
        elif line.startswith('file: '):
            file = line[6:].strip()
        elif line.startswith('old: '):
            old = line[5:]
        elif line.startswith('new:'):
            faults[-1] = Fault(says, place, pairs + ((file, old, line[4:].removeprefix(' ')),))
    return faults


def refused_places(log):
    """The files of the crate that the prover refused by an error of their own, each by itself and with each goal that was refused."""
    places = set()
    log = re.sub(r'\n  +', ' ', log)  # the prover breaks long lines
    own = [(file, goal) for file, goal, what in ERROR.findall(log) if not any(words in what for words in NOT_ITS_OWN)]
    for file, goals in WITHOUT_FILE.findall(log):
        own.extend((file, goal) for goal in re.findall(r'`([^`]*)`', goals))
    for file, goal in own:
        places.update((file, file + ' ' + goal))
    return places


def left_open(log):
    """The goals that the tactics leave open in functions with a file, each with the folder of its function."""
    left, of_next = set(), []
    for line in re.sub(r'\n  +', ' ', log).splitlines():  # a function's goals stand before its own line
        goal, function = OPEN.match(line), OF_FUNCTION.match(line)
        if goal:
            of_next.append(goal[1])
        elif function:
            *way, name = function[1].split('::')[1:]
            left.update(('/'.join(['proofs', *way, begin + name]), goal) for begin in ('', '+') for goal in of_next)
        if line.startswith('fn '):
            of_next = []
    return left


def by_tactics(home, was, left, goals):
    """The places of those goals left open that the crate as it stands has, and has no answer for."""
    places = set()
    for folder, goal in left:
        file = folder + '/Answers.antt'
        if folder not in was or not (home / file).is_file():
            continue
        of_goal = goals.get(file) or {name: name for _, name in was[folder][0]}
        answered = re.findall(r'(?m)^pub ([\w-]+) : goal\.', (home / file).read_text(encoding='utf8'))
        for name in as_it_stands(of_goal, goal):
            if name not in answered and name.partition(CLAUSE)[0] not in answered:
                places.update((file, file + ' ' + name))
    return places


def overlap(place, other):
    """Whether one error could stand for faults at both places."""
    return place == other or place.startswith(other + ' ') or other.startswith(place + ' ')


def amiss(fault, faults, refused):
    """What is wrong with a fault of an edit whose check refused these places; '' where nothing is."""
    if not fault.says:
        return 'no comment line says what it makes'
    if not fault.pairs:
        return 'it changes nothing'
    if len(faults) == 1 and not fault.place:
        return '' if refused else 'no error of its own'
    if not fault.place:
        return 'in a round, without a place'
    if sum(overlap(fault.place, other.place) for other in faults) > 1:
        return 'another fault has its place, %s' % fault.place
    return '' if fault.place in refused else 'no error of its own at %s' % fault.place


def copy_crates(to):
    """The crates as they stand, without what rt made of them; what a run before kept there stays."""
    for part in ('crates.txt', 'HANDLES'):
        if os.path.isfile(part):
            shutil.copy2(part, to)
    for folder, folders, files in os.walk('crates'):
        if 'out' in folders:
            folders.remove('out')
        there = to / folder
        there.mkdir(parents=True, exist_ok=True)
        for name in os.listdir(there):
            if name != 'out' and name not in folders and name not in files:
                (shutil.rmtree if (there / name).is_dir() else os.remove)(there / name)
        for name in files:
            text = pathlib.Path(folder, name).read_bytes()
            if not (there / name).is_file() or (there / name).read_bytes() != text:
                (there / name).write_bytes(text)


def names(home):
    """The goals and the steps of each function of the crate: a list of [number, name] for the goals, and one for the steps; {} where rt gives none."""
    with tempfile.TemporaryDirectory(prefix='rounds-names-') as folder:
        run(home, 'check', '--generated', folder, '--old-names')
        file = pathlib.Path(folder, 'names.json')
        told = json.loads(file.read_text(encoding='utf8')) if file.is_file() else {}
    found = {}
    for key, of in told.items():
        at = re.match(r'Rattle-\w+-proofs\.(.*)\.Lts(?:-\w+)?$', key)
        if at and isinstance(of, dict) and 'needs' in of:
            found['proofs/' + at[1].replace('.', '/')] = of['needs'], [place[2] for place in of['places']]
    return found


def follow(home, was, now):
    """Gives the answers of each function whose goals or steps have other names in the edited code those names; returns the names of goals by file."""
    goals = {}
    for folder, (needs, steps) in was.items():
        file = home / folder / 'Answers.antt'
        if folder not in now or (needs, steps) == now[folder] or not file.is_file():
            continue
        new_needs, new_steps = dict(now[folder][0]), now[folder][1]
        of_goal = {name: new_needs.get(number, name) for number, name in needs}
        alike = len(steps) == len(new_steps)  # as long as the code goes the same way, a step is known by its place, whatever it calls
        of_step = {name: new for (number, name), (other, new) in zip(steps, new_steps) if alike or number == other}
        goals[folder + '/Answers.antt'] = of_goal
        text = file.read_text(encoding='utf8')
        text = re.sub(r"(?<![\w.'-])([cw]\.)([\w-]+)", lambda m: m[1] + of_step.get(m[2], m[2]), text)
        text = re.sub(r'(?m)^(pub )([\w-]+)( : goal\.)([\w-]+)', lambda m: m[1] + in_edited(of_goal, m[2]) + m[3] + in_edited(of_goal, m[4]), text)
        text = re.sub(r'(?m)^([\w-]+)(?= (?:\w+ )*c =)', lambda m: in_edited(of_goal, m[1]), text)
        file.write_text(text, encoding='utf8')
    return goals


def in_edited(of_goal, name):
    """A goal's name in the edited code. One of a single clause is named after the goal of all."""
    goal, of, clause = name.partition(CLAUSE)
    return of_goal.get(goal, goal) + of + clause


def as_it_stands(of_goal, name):
    """The names in the crate as it stands of the goal that has that name in the edited code."""
    goal, of, clause = name.partition(CLAUSE)
    return [was + of + clause for was, new in of_goal.items() if new == goal]


def run(home, *words):
    """What rt says of these words in the crate's folder."""
    streams = {'stdin': subprocess.DEVNULL, 'stdout': subprocess.PIPE, 'stderr': subprocess.STDOUT}
    return subprocess.run(['rt', *words], cwd=home, text=True, errors='replace', **streams).stdout


def check(room, crate, faults):
    """Checks the crate in that copy with these faults in it, and gives what is refused there, under the names of the crate as it stands; None where a fault
    cannot be put in."""
    home, texts = room / 'crates' / crate, {}
    for file, old, new in (pair for fault in faults for pair in fault.pairs):
        text = texts.setdefault(file, (home / file).read_text(encoding='utf8'))
        if text.count(old) != 1:
            return None
        texts[file] = text.replace(old, new)
    was = names(home)
    own = {file: file.read_bytes() for file in [*(home / 'proofs').rglob('Answers.antt'), *(home / file for file in texts)]}
    try:
        for file, text in texts.items():
            (home / file).write_text(text, encoding='utf8')
        goals = follow(home, was, names(home))
        said = run(home, 'check')
    finally:
        for file, text in own.items():
            file.write_bytes(text)
    label = '_'.join([crate] + re.findall(r'\w+', faults[0].says)[:8]) + ('_alone' if len(faults) == 1 else '')
    (ROOM / (label + '.log')).write_text(said, encoding='utf8')
    refused = refused_places(said) if REFUSED.search(said) else set()
    for file, of_goal in goals.items():
        edited = {place for place in refused if place.startswith(file + ' ')}
        refused = refused - edited | {file + ' ' + name for place in edited for name in as_it_stands(of_goal, place[len(file) + 1:])}
    return refused | by_tactics(home, was, left_open(said), goals) if refused or REFUSED.search(said) else refused


def read(path, rooms):
    """Tries the faults of the edit; gives a line for each, and how many pass and how many fail."""
    crate, label = path.parts[1], path.stem
    faults = faults_of(path.read_text(encoding='utf8'))
    room = rooms.get()
    try:
        refused = check(room, crate, faults)
        lines, failed = [], 0
        for fault in faults:
            why = 'it cannot be put in' if refused is None else amiss(fault, faults, refused)
            alone = ''
            if why.startswith('no error of its own') and len(faults) > 1:
                why, alone = amiss(fault, faults, check(room, crate, [fault]) or set()), ', by itself'
            failed += why != ''
            lines.append('%s %s/%s%s: %s%s' % ('FAILED' if why else 'ok', crate, label, alone, fault.says, ' (%s)' % why if why else ''))
    finally:
        rooms.put(room)
    return lines, len(faults) - failed, failed


def main():
    jobs = max(1, min(4, os.cpu_count() or 1))
    rooms = queue.Queue()
    for number in range(jobs):
        room = ROOM / str(number)
        room.mkdir(parents=True, exist_ok=True)
        copy_crates(room)
        rooms.put(room.resolve())
    paths = sorted(pathlib.Path('crates').glob('*/must-fail/*.edit'))
    if sys.argv[1:]:
        paths = [path for path in paths if '%s/%s' % (path.parts[1], path.stem) in sys.argv[1:]]
    passed = failed = 0
    with concurrent.futures.ThreadPoolExecutor(jobs) as pool:
        for lines, good, bad in pool.map(lambda path: read(path, rooms), paths):
            print('\n'.join(lines), flush=True)
            passed, failed = passed + good, failed + bad
    for number in range(jobs):
        shutil.rmtree(ROOM / str(number), ignore_errors=True)
    if failed:
        print('what rt said of each: %s' % ROOM)
    else:
        shutil.rmtree(ROOM, ignore_errors=True)
    print('%d passed, %d failed' % (passed, failed))
    return 0 if paths and failed == 0 else 1


if __name__ == '__main__':
    sys.exit(main())
