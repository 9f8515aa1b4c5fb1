#!/usr/bin/env python3
"""Turns the functions and definitions of the crates by the edits of crates/NAME/edits.txt, and sees that each is refused.

An edit begins with a line `edit: NAME` and ends at the next one. One of code has lines: `refused: PATH` names a function
whose contract has to refuse it, as the prover prints it, below its crate, and `by: GOAL` after it the goal of that
function which is open then; `file: PATH` a file of the crate; and then `old: TEXT` and `new: TEXT` in turn, where the old
text stands exactly once in that file as it is. Such lines may follow for further functions: each of them has to refuse the
edit. A function may refuse it by a goal of meaning, which is one of what it ensures, of its type's invariant or of a
loop's, or, where what it promises is carried by what it has to show to a function that it calls, by one of what that
requires; or by `measure`, where a loop has none any more, since each call has to end. Nothing else refuses an edit: no
goal of an overflow, a bound, a cast or an index, no proof that names what the edit took away, and no run out of steps.

An edit of a definition has a line `refused: LAW` alone, without a goal, and then the same lines. It is tried over a copy
of what the definition reaches, as tests/definitions.py says. What follows is of edits of code.

Each edit is judged by itself: its goal has to stay open, whatever is tried at it. Tried are the answer that is written
for the goal, and the calls that the prover makes first at a goal without an answer. Both stand in the file of answers of
the turned function, with nothing else, and what is said of each shows whether it fits. One of which nothing is said
proves the goal, and so does one that isn't read at all: neither refuses. A check that ends without a verdict, or that is
stopped since it took too much time of a processor, refuses nothing.

A goal could be open for what these calls lack alone, or since the answer that is written for it knows one form of the
body. It isn't where values are found that break it. Any other goal is tried once more, by the prover's own search in
the turned function: without its written answer, and with holes in place of the others. So an equal body is not refused
where values break nothing and the search proves the goal. Where the search proves it of no body, not even of the right
one, an equal body of another form can't be distinguished from a wrong one: such an edit is for its readers to judge.

Much of a check's time passes before its first proof, so a crate's edits are tried together, in rounds of at most ROUND
functions, in each of which no function is turned twice. The bodies of functions that a round doesn't turn stand empty in it,
since a function is known to its callers by its contract. What a round has checked is not checked again in a later one.
That the crate is proved as it is, is not seen here.

With words, it takes the crates with these names alone; with --jobs N, so many crates side by side, and so many jobs in
all where fewer crates are left. What isn't proved yet of the crates below is proved first. The last line is
'N passed, M failed', where each edit counts once, one that can't be read or doesn't fit as failed, and so does each
fault that is not one of an edit.
"""
import argparse
import contextlib
import os
import re
import shutil
import signal
import subprocess
import sys
import tempfile
import time
from concurrent import futures
from dataclasses import dataclass, field, replace
from pathlib import Path

sys.path.insert(0, str(Path(__file__).resolve().parent))
import definitions  # noqa: E402
from bodies import EMPTY, NEVER, NEVER_GOALS, functions_in, may_be_empty  # noqa: E402
from definitions import PARTS, SPENT  # noqa: E402

TOP = Path(__file__).resolve().parent.parent
# The file of a crate with its edits.
EDITS = 'edits.txt'
KIT = Path(shutil.which('rt')).resolve().parent.parent
# The files below proofs/ that belong to one function.
OF_FUNCTION = ('Answers.antt', 'Invariants.antt', 'Proof.antt')
# Seconds of a processor for each process of a check, which may have to prove a whole crate.
LIMIT = 3600
# What is asked of an edit in turn: what is tried at its goal; the prover's own search, with holes in place of the other
# answers; and that search without any, where the turned function lacks a goal of them.
TRIES, SEARCH, BARE = range(3)
# So many functions at most are asked in a round, or one edit: the next one takes the jobs that are free by then.
ROUND = 48
# So many crates at once while a command proves them, and seconds until it is seen again what it has proved. A library
# is whole once nothing was written to it for so many seconds.
BESIDE = 2
PAUSE = 1
SETTLED = 5
# Goals of meaning: what a function ensures, the invariant of a type, and that of a loop.
MEANING = re.compile(r'(returns|invariant_of)(-|$)|loop(-\S+)?-(init|preserved)(-|$)')
# What a called function requires, but for the goals of an index and of what can't be.
REQUIRED = re.compile(r'(?<!index)(?<!unreachable)(?<!unwrap)(?<!expect)-requires(-|$)')
MEASURE = 'measure'
# By this line above a function the prover doesn't search for what no answer proves of it.
UNSEARCHED = '#[tactic(none)]\n'
# The calls that the prover makes first at a goal without an answer, and where their lists of lemmas come from.
FIRST = ('search (given.tests, given.rules)', 'grind (given.arith, sets.common_steps) steps 2000000')
LISTS = 'use Rattle.std.proofs.Common as given\nuse Rattle.std.proofs.lemmas.Grind as sets\n'
# The head of an answer, and of a definition beside the answers.
HEAD = re.compile(r'^(?:abbrev )?(?:pub )?(\S+) : (.*)$', re.M)
# What the prover says of an answer that names what an edit took away.
LACKING = re.compile(r'has no field|is not in scope|has no `|was not admitted|is no name')
# What it says of a goal that is false: it has found values for what the goal names.
BROKEN = re.compile(r'the goal does not follow\.\s+The hypotheses hold, and the goal fails')
# What it says of an answer that it refuses, or of a file of answers: the function's folder, the name, and why.
REFUSED = re.compile(r'^\./proofs/(\S+)/(?:Answers|Invariants|Proof)\.antt\S*: error: (?:`([^`]+)`: )?'
                     r'(.*(?:\n  .*)*)', re.M)


@dataclass
class Edit:
    """A named change of a crate's files, and the functions that it turns, each with the goal that has to refuse it: or the
    law, without a goal, where it changes a definition."""

    name: str
    refused: dict[str, str | None]
    changes: list[tuple[str, str, str]]
    # The functions of which more is asked, where it isn't asked of all.
    doubtful: frozenset[str] | None = None

    def asked(self):
        """The functions that are asked, each with its goal."""
        return {it: goal for it, goal in self.refused.items() if self.doubtful is None or it in self.doubtful}

    def is_of_definition(self):
        """Whether it changes a definition, of one file, and a law has to refuse it."""
        return [*self.refused.values()] == [None]


class BadEdit(Exception):
    """An edit that can't be read, or that doesn't fit the crate."""


def may_refuse(goal):
    """Whether a function may refuse an edit by this goal."""
    return goal == MEASURE or MEANING.match(goal) is not None or REQUIRED.search(goal) is not None


def read_edit(name, lines):
    """The edit of this name with these lines, or a BadEdit that says what is wrong with it."""
    refused, function, file, old, changes = {}, None, None, None, []
    for line in lines:
        word, _, text = line.partition(':')
        text = text.removeprefix(' ')
        if word == 'refused' and function is None:
            function = text
        elif word == 'by' and function is not None and may_refuse(text):
            refused[function] = text
            function = None
        elif word == 'file' and function is not None and not refused and text.startswith(definitions.SPECS):
            refused[function] = None
            file, function = text, None
        elif word == 'file' and function is None and None not in refused.values():
            file = text
        elif word == 'old' and old is None:
            old = text
        elif word == 'new' and file and old:
            changes.append((file, old, text))
            old = None
        else:
            raise BadEdit(f'its line is none of an edit: {line}')
    if not refused or function is not None or not changes or old is not None:
        raise BadEdit('it names no function with its goal, changes nothing, or ends after an old text')
    return Edit(name, refused, changes)


def lines_of(text):
    """The name of each edit of a text, and its lines. What stands above the first one has no name."""
    found = [('', [])]
    for line in text.splitlines():
        word, _, name = line.partition(': ')
        if word == 'edit':
            found.append((name, []))
        elif line:
            found[-1][1].append(line)
    return found[1:] if not found[0][1] else found


def edits_of(crate):
    """The edits of the crate in this folder, and for each text that is none its name and why."""
    edits, bad, names = [], [], set()
    for name, lines in lines_of((crate / EDITS).read_text(encoding='utf-8')):
        try:
            if not name or name in names:
                raise BadEdit('it has no name of its own')
            names.add(name)
            edit = read_edit(name, lines)
            list(places_of(edit, crate))
            edits.append(edit)
        except BadEdit as why:
            bad.append((name, f'{crate.name}/{name}: bad edit: {why}'))
    return edits, bad


def places_of(edit, crate):
    """The places that an edit turns, in the files as they are: file, begin, end, and the new text."""
    for file, old, new in edit.changes:
        text = (crate / file).read_text(encoding='utf-8')
        if text.count(old) != 1 or old == new:
            raise BadEdit(f'its old text stands {text.count(old)} times in {file}: {old}')
        begin = text.index(old)
        yield file, begin, begin + len(old), new


def overlap(these, others):
    """Whether two lists of places meet."""
    return any(file == other and begin < other_end and other_begin < end
               for file, begin, end, _ in these for other, other_begin, other_end, _ in others)


def first_round(edits, crate):
    """Of these edits the first ones that can be tried together, no two of which turn one function, and their places."""
    members, turned = [], []
    for edit in edits:
        if members and sum(len(it.asked()) for it in [*members, edit]) > ROUND:
            break
        places = list(places_of(edit, crate))
        if all(edit.refused.keys().isdisjoint(it.refused) for it in members) and not overlap(places, turned):
            members.append(edit)
            turned += places
    return members, turned


def crates_of(top):
    """Each crate of crates.txt, with the libraries that it names."""
    found = {}
    for line in (top / 'crates.txt').read_text(encoding='utf-8').splitlines():
        head, _, names = line.partition('#')[0].partition(':')
        if head.strip():
            found[head.split()[0]] = names.split()
    return found


def below(name, crates):
    """The crates of the repository below this one, each once."""
    found = []
    for dependency in crates[name]:
        if dependency in crates:
            found += [*below(dependency, crates), dependency]
    return list(dict.fromkeys(found))


def is_built(name):
    """Whether the proved library of the crate is there, and no source of the crate is newer."""
    folder = TOP / 'crates' / name
    built = folder / 'out' / 'rlib'
    sources = [path for part in PARTS for path in (folder / part).glob('**/*')]
    return (built / f'{name}.rlib').exists() and all(it.stat().st_mtime <= built.stat().st_mtime for it in sources)


def command_of(name, crates, proved, jobs=1):
    """The prover's command for a crate, with so many jobs, over the kit's libraries and the repository's, copied from
    where they were proved to this folder."""
    libraries = [f'{it}={KIT}/rlibs/{it}.rlib' for it in ['std', *crates[name]] if it not in crates]
    libraries += [f'{it}={proved}/{it}/{it}.rlib' for it in crates[name] if it in crates]
    folders = [f'{KIT}/rlibs', *[f'{proved}/{it}' for it in below(name, crates)]]
    return [f'{KIT}/bin/rattle', 'check', '--crate-name', name, 'src/lib.rt', '--jobs', str(jobs),
            *[word for it in libraries for word in ('--extern', it)],
            *[word for it in folders for word in ('-L', f'dependency={it}')],
            '--antt-project', f'{KIT}/rattle/logic/antt-project.json', '--logic-built', f'{KIT}/logic_built',
            '--incremental', 'kept']


class Libraries:
    """The proved libraries of the crates, each copied once to a folder of this program's own: what runs beside it may
    make a library anew, and a library fits those alone that it was made with."""

    def __init__(self, folder, ended=None):
        self.folder, self.ended, self.parent = folder, ended, os.getppid()
        self.before = {it.name: made_at(library_of(it.name)) for it in (TOP / 'crates').glob('*')}
        self.seen = {}

    def are_beside(self):
        """Whether the command is still at work that proves them. It isn't once whoever started both is gone."""
        return self.ended is not None and not self.ended.exists() and os.getppid() == self.parent

    def priority(self):
        """The words before a command that has to leave the processors to the one at work. (A command isn't started in a
        session of its own: Linux may give each session an equal share, whatever the priorities within it.)"""
        return ['nice'] if self.are_beside() else []

    def take(self, name):
        """Whether the library is in the folder. While the command is at work, only one counts that it has made, and
        that is whole."""
        library, there = library_of(name), self.folder / name
        if there.is_dir():
            return True
        made = made_at(library)
        if made is None or self.are_beside() and not self.has_settled(name, made):
            return False
        room = tempfile.mkdtemp(dir=self.folder)
        try:
            shutil.copytree(library.parent, f'{room}/{name}')
        except (OSError, shutil.Error):
            return False
        if made_at(library) != made:
            return False
        os.rename(f'{room}/{name}', there)
        return True

    def has_settled(self, name, made):
        """Whether the library, last written to at this time, is another than at the beginning, and was seen to be the
        same for a while. (Times of files are compared with one another alone: their clock may be behind that of the
        program.)"""
        if made == self.before.get(name):
            return False
        last, since = self.seen.get(name, (None, None))
        if last != made:
            self.seen[name] = made, time.monotonic()
            return False
        return time.monotonic() - since >= SETTLED

    def has(self, names):
        """Whether the libraries with these names are in the folder."""
        return all([self.take(it) for it in names])


def library_of(name):
    """Where the command makes the proved library of a crate."""
    return TOP / 'crates' / name / 'out' / 'rlib' / f'{name}.rlib'


def made_at(library):
    """When a library was last written to, in nanoseconds, or None where there is none."""
    try:
        return max(os.stat(it).st_mtime_ns for it in [library, library / 'format', *library.iterdir()])
    except OSError:
        return None


def run(command, room, limit):
    """The exit status of a command and what it says. Each of its processes has so many seconds of a processor, however
    long that takes by the clock, and is killed then. None is left once the command has ended."""
    with tempfile.TemporaryFile('w+', encoding='utf-8', errors='replace') as said:
        with subprocess.Popen(['sh', '-c', 'ulimit -t "$0" && exec "$@"', str(limit), *command], cwd=room,
                              stdin=subprocess.DEVNULL, stdout=said, stderr=subprocess.STDOUT, process_group=0) as started:
            status = started.wait()
            with contextlib.suppress(ProcessLookupError):
                os.killpg(started.pid, signal.SIGKILL)
        said.seek(0)
        return status, said.read()


def check(room, name, places, asked, command, way):
    """The status of a check of the crate in this folder, with these places of it turned, and what it says. Of these
    functions these goals are asked for, in this way. The bodies of all others that aren't turned stand empty."""
    for part in PARTS:
        shutil.rmtree(room / part, ignore_errors=True)
        if (TOP / 'crates' / name / part).is_dir():
            shutil.copytree(TOP / 'crates' / name / part, room / part)
    for file, begin, end, new in sorted([*places, *emptied(room, places, asked, [*asked] if way == TRIES else [])], reverse=True):
        text = (room / file).read_text(encoding='utf-8')
        (room / file).write_text(text[:begin] + new + text[end:], encoding='utf-8')
    root = room / 'src/lib.rt'
    root.write_text(root.read_text(encoding='utf-8') + NEVER, encoding='utf-8')
    answers = {it: answers_for(answers_of(room, it), name, it, goals, way) for it, goals in asked.items()}
    answers['never'] = asking('', name, 'never', NEVER_GOALS, ())
    for function, text in answers.items():
        path = answers_at(room, function)
        path.parent.mkdir(parents=True, exist_ok=True)
        path.write_text(text, encoding='utf-8')
    return run([*command, '--allow-holes', *[word for it in asked for word in ('--only', it)]], room, LIMIT)


def answers_for(text, crate, function, goals, way):
    """A function's answers, as they are asked for these goals in this way."""
    if way == TRIES:
        return asking(text, crate, function, goals)
    holes = [it for it in parts_of(text)[1] if way == SEARCH and it.type_of.startswith('goal.') and it.name not in goals]
    return (goals_of(crate, function) if holes else '') + ''.join(
        f'\npub {it.name} : {it.type_of}\n{it.name} = ?\n' for it in holes)


def emptied(crate, places, asked, searched):
    """What is changed in a copy of a crate in which these places are turned and these functions are asked of, as places
    with their new text: other bodies are empty, and the prover doesn't search in those of which goals are asked. The
    files of answers and invariants of the empty ones go."""
    functions, paths = [*functions_in(crate)], [it.split('::') for it in asked]
    empty = [it for it in functions if may_be_empty(it, paths, places)]
    for path in [it for it in (crate / 'proofs').glob('**/*.antt') if it.name in OF_FUNCTION]:
        names = list(path.parent.relative_to(crate / 'proofs').parts)
        if any(it.is_at(names) for it in empty):
            path.unlink()
    unsearched = [it for it in functions if not it.has_tactic and any(it.is_at(path.split('::')) for path in searched)]
    return [(it.file, it.begin, it.end, EMPTY) for it in empty] + [
        (it.file, it.head, it.head, UNSEARCHED) for it in unsearched]


def answers_at(crate, function):
    """The file with a function's written answers."""
    return crate / 'proofs' / function.replace('::', '/') / 'Answers.antt'


def answers_of(crate, function):
    """A function's written answers, if it has any."""
    path = answers_at(crate, function)
    return path.read_text(encoding='utf-8') if path.exists() else ''


@dataclass
class Part:
    """A definition of a file of answers: the line of its head, its name and type, and the text after the head."""

    head: str
    name: str
    type_of: str
    behind: str

    def names(self, name):
        """Whether the text after the head names this."""
        return re.search(rf'(?<![\w-]){re.escape(name)}(?![\w-])', self.behind) is not None


def parts_of(text):
    """What stands above the first definition of a file of answers, and the definitions."""
    heads = [*HEAD.finditer(text)]
    ends = [it.start() for it in heads] + [len(text)]
    return text[:ends[0]], [Part(it[0], it[1], it[2], text[it.end():end]) for it, end in zip(heads, ends[1:])]


def is_written(text, goal):
    """Whether these answers have one of the goal."""
    return any(it.name == goal for it in parts_of(text)[1])


def as_written(goal):
    """The name by which the answer is tried that is written for a goal."""
    return f'{goal}-as-written'


def tries(text, goal):
    """The names of what is tried at a goal: the answer that is written for it, if there is one, and the calls."""
    return [as_written(goal), goal] if is_written(text, goal) else [goal]


def goals_of(crate, function):
    """The line by which a function's answers name its goals."""
    return f'use Rattle.{crate}.proofs.{function.replace("::", ".")}.Goals as goal\n'


def asking(text, crate, function, goals, calls=FIRST):
    """A function's answers, of which those are left that are tried at these goals, and for each of these the calls by its
    name: what the answers name is a hole."""
    top, parts = parts_of(text)
    of_goals = goals_of(crate, function)
    left = [it for it in parts if it.name in goals or not it.type_of.startswith('goal.')]
    binders = 'g c' if any(re.search(rf'^{re.escape(it.name)} g c', it.behind, re.M) for it in parts) else 'c'
    found = [LISTS, top if of_goals in top else top + of_goals, '\n']
    for it in parts:
        if it.name in goals:
            renamed = re.sub(rf'^{re.escape(it.name)}(?= )', as_written(it.name), it.behind, flags=re.M)
            found.append(f'{as_written(it.name)} : {it.type_of}{renamed}')
        elif not it.type_of.startswith('goal.'):
            found.append(it.head + it.behind)
        elif any(other.names(it.name) for other in left):
            found.append(f'pub {it.name} : {it.type_of}\n{it.name} = ?\n\n')
    for goal in goals:
        if goal != MEASURE:
            written = next((it.behind for it in parts if it.name == goal), '')
            further = [it for it in calls if not written.rstrip().endswith(f' = {of_lists(it)}')]
            found.append(f'pub {goal} : goal.{goal}\n{goal} {binders} = {first_of(further)}\n')
    return without_idle_branches(''.join(found))


def of_lists(call):
    """A call as a file of answers has it that imports the lists of lemmas."""
    return re.sub(r'(given|sets)\.', '', call)


def first_of(calls):
    """What tries these calls one by one, or a hole where there is none."""
    if len(calls) < 2:
        return f'{calls[0] if calls else "?"}\n'
    return 'first_of (\n' + ''.join(f'    {it},\n' for it in calls) + ')\n'


def without_idle_branches(text):
    """A file of answers whose import of branches has those alone that it names: a turned function may lack the others."""
    def import_of(found):
        rest = text[:found.start()] + text[found.end():]
        named = [it for it in found[2].split(', ') if re.search(rf'(?<![\w-]){re.escape(it)}(?![\w-])', rest)]
        return f'{found[1]}.{{{", ".join(named)}}}\n' if named else ''

    return re.sub(r'^(use \S+\.Goals)\.\{(.*)\}\n', import_of, text, flags=re.M)


@dataclass
class Told:
    """What a check says of one function: what does not fit, and why; what the prover's own search did not prove; and
    what else says nothing of its contract."""

    misfits: dict[str, str] = field(default_factory=dict)
    unproved: list[str] = field(default_factory=list)
    beside: list[str] = field(default_factory=list)
    has_no_measure: bool = False

    def is_broken(self, goal):
        """Whether values are found of which all holds that is known there, and not the goal."""
        return BROKEN.search(self.misfits.get(goal, '')) is not None

    def lacks_an_answer(self):
        """Whether an answer names what isn't there, as a goal that the turned function doesn't have."""
        return any(LACKING.search(it) for it in self.misfits.values())

    def is_left_open(self, goal):
        """Whether the prover's own search leaves the goal. One that covers several clauses is searched for clause by
        clause, and is left where one of them is."""
        return any(it == goal or it.startswith(f'{goal}-clause-') for it in self.unproved)

    def why_not(self, goal, tried):
        """Why the goal does not refuse an edit, where this is tried at it or else the prover's own search, or nothing
        where it does."""
        if goal == MEASURE:
            return [] if self.has_no_measure else ['its loops have their measures', *self.beside]
        if not tried:
            others = f"the prover's own search leaves others: {', '.join(self.unproved) or 'none'}"
            return [*([] if self.is_left_open(goal) else [others]), *self.beside]
        proved = [f'its goal is proved, or is none: {it}' for it in tried if it not in self.misfits]
        lacking = [f'an answer names what is gone: {self.misfits[it]}' for it in tried
                   if LACKING.search(self.misfits.get(it, ''))]
        spent = [f'a run out of steps: {self.misfits[it]}' for it in tried if SPENT.search(self.misfits.get(it, ''))]
        return proved[:1] + lacking[:1] + spent[:1] + self.beside


def told_by(name, said):
    """What a check of the crate says of each function of which it says more than that it isn't proved."""
    told = {}
    for function, line in re.findall(rf'^fn {name}::(\S+): (.*)$', said, re.M):
        # Paths hold dots and slashes, and goals neither; what comes after the semicolon is of other functions.
        for goals in re.findall(r'`search` did not prove ([^;]*)', line):
            told.setdefault(function, Told()).unproved += re.findall(r'`([^`]+)`', goals)
        if SPENT.search(line):
            told.setdefault(function, Told()).beside.append(f'no verdict: {line}')
        if 'expected a measure' in line:
            told.setdefault(function, Told()).has_no_measure = True
    for folder, goal, why in REFUSED.findall(said):
        one = told.setdefault(folder.replace('/', '::'), Told())
        if goal:
            one.misfits[goal] = why
        else:
            one.beside.append(f'a fault of a proof file: {why.splitlines()[0]}')
    return told


def without_verdict(status, said):
    """How a check ended that has no verdict, or nothing where it has one."""
    if status in (0, 1):
        return None
    bound = f', which has {LIMIT} s of a processor' if status == -signal.SIGKILL else ''
    return f'the check{bound} ended with status {status}' + ''.join(f'\n    {line}' for line in said.splitlines()[-3:])


def in_doubt(edit, told, way):
    """The functions of an edit of which more has to be asked, by what its check says of each: one that refuses the edit,
    where no values break its goal; or one that lacks a goal which has a hole."""
    if way == TRIES:
        return frozenset(it for it, goal in edit.refused.items() if goal != MEASURE
                         and not told.get(it, Told()).is_broken(goal))
    return frozenset(it for it in edit.asked() if way == SEARCH and told.get(it, Told()).lacks_an_answer())


def try_round(name, members, status, said, way=TRIES):
    """What is wrong with the members of a round by what their check said, which asked in this way, each fault with the
    name of its edit or None; and the members that are in doubt. At first those are asked once more that are refused."""
    why = without_verdict(status, said)
    if why:
        return [(it.name, f'{name}/{it.name}: {why}') for it in members], []
    told, faults = told_by(name, said), []
    doubts = [replace(it, doubtful=in_doubt(it, told, way)) for it in members]
    for edit, doubt in zip(members, doubts):
        for function, goal in edit.asked().items():
            tried = tries(answers_of(TOP / 'crates' / name, function), goal) if way == TRIES else []
            lines = told.get(function, Told()).why_not(goal, tried)
            if lines and (way == TRIES or function not in doubt.doubtful):
                faults.append((edit.name, '\n    '.join([
                    f'{name}/{edit.name}: {function} is not refused', *lines[:6]])))
    turned = [function for it in members for function in it.refused]
    for other, one in sorted(told.items()):
        lines = [*one.beside, *[f'{goal}: {why.splitlines()[0]}' for goal, why in one.misfits.items()]]
        if lines and other not in turned:
            faults.append((None, f'{name}: {other} has faults, and none of these edits turns it: '
                                 f'{", ".join(it.name for it in members)}\n    ' + '\n    '.join(lines[:3])))
    faulty = {it for it, _ in faults}
    return faults, [it for it in doubts if it.doubtful and it.name not in faulty]


def counted(edits, faults):
    """How many of these edits have no fault, and how many edits have one, with each fault of no edit."""
    faulty = {name for name, _ in faults if name is not None}
    return sum(it.name not in faulty for it in edits), len(faulty) + sum(name is None for name, _ in faults)


class Crate:
    """A crate whose edits are tried, in a folder of its own, and how it is checked, with as many jobs as there are."""

    def __init__(self, name, crates, libraries, jobs_now, room):
        self.name, self.room, self.folder = name, Path(room), TOP / 'crates' / name
        self.crates, self.libraries, self.jobs_now = crates, libraries, jobs_now

    def try_definitions(self, edits):
        """Tries these edits of definitions: what is wrong."""
        def check_laws(modules):
            """How a check of the laws of these modules ended in the folder, where it has no verdict, and what it says."""
            command = command_of(self.name, self.crates, self.libraries.folder, self.jobs_now())
            only = [word for it in modules for word in ('--only', it)]
            status, said = run([*self.libraries.priority(), *command, *only], self.room, LIMIT)
            return without_verdict(status, said), said

        return definitions.try_edits(self.folder, self.room, edits, check_laws)

    def check(self, places, asked, way):
        """The status of a check with these places turned, in which so is asked in this way, and what it says."""
        command = command_of(self.name, self.crates, self.libraries.folder, self.jobs_now())
        return check(self.room, self.name, places, asked, [*self.libraries.priority(), *command], way)

    def try_edits(self, edits, way=TRIES):
        """Tries these edits in rounds: what is wrong. Of those in doubt more is asked."""
        left, faults, doubts = edits, [], []
        while left:
            members, places = first_round(left, self.folder)
            asked = {function: [goal] for it in members for function, goal in it.asked().items()}
            wrong, doubtful = try_round(self.name, members, *self.check(places, asked, way), way)
            faults, doubts = faults + wrong, doubts + doubtful
            left = [it for it in left if it not in members]
        return faults + (self.try_edits(doubts, way + 1) if doubts else [])


def try_crate(name, crates, libraries, jobs_now):
    """Tries a crate's edits over these libraries: the edits, and what is wrong."""
    edits, faults = edits_of(TOP / 'crates' / name)
    with tempfile.TemporaryDirectory(prefix='edits-') as room:
        os.mkdir(f'{room}/kept')
        crate = Crate(name, crates, libraries, jobs_now, room)
        faults += crate.try_definitions([it for it in edits if it.is_of_definition()])
        return edits, faults + crate.try_edits([it for it in edits if not it.is_of_definition()])


def in_turns(names, jobs, is_ready, is_beside, call):
    """What the call gives for each of these names, in their order: so many at once, or two while a command runs beside
    them. A name waits until it is ready, and has no answer where it isn't when the command has ended."""
    left, running, given = list(names), {}, {}
    with futures.ThreadPoolExecutor(jobs) as pool:
        while left or running:
            beside = is_beside()
            free = (min(jobs, BESIDE) if beside else jobs) - len(running)
            for name in [it for it in left if is_ready(it)][:free]:
                left.remove(name)
                running[pool.submit(call, name)] = name
            if running:
                for it in futures.wait(running, PAUSE, futures.FIRST_COMPLETED).done:
                    given[running.pop(it)] = it.result()
            elif beside:
                time.sleep(PAUSE)
            else:
                break
    return given


def try_crates(chosen, crates, jobs, libraries):
    """Tries the edits of these crates, the greatest ones first: how many passed and failed."""
    undone = set(chosen)

    def jobs_now():
        """One job while the command is at work that proves the libraries, then the share of a crate that isn't done,
        rounded up."""
        return 1 if libraries.are_beside() else -(-jobs // len(undone))

    def tried_crate(name):
        """What a crate's edits gave, which is done then."""
        try:
            return try_crate(name, crates, libraries, jobs_now)
        finally:
            undone.discard(name)

    size = {it: sum(path.stat().st_size for path in (TOP / 'crates' / it / 'src').glob('**/*.rt')) for it in chosen}
    tried = in_turns(sorted(chosen, key=lambda it: -size[it]), jobs, lambda it: libraries.has(below(it, crates)),
                     libraries.are_beside, tried_crate)
    passed = failed = 0
    for name in chosen:
        if name not in tried:
            print(f'{name}: a crate below is not proved', flush=True)
            failed += 1
            continue
        edits, faults = tried[name]
        print(f'{name}: {len(edits)} edits', *[text for _, text in faults], sep='\n', flush=True)
        well, ill = counted(edits, faults)
        passed, failed = passed + well, failed + ill
    return passed, failed


def main():
    words = argparse.ArgumentParser(description=__doc__.splitlines()[0])
    words.add_argument('--jobs', type=int, default=len(os.sched_getaffinity(0)))
    words.add_argument('--beside', type=Path, metavar='FILE')
    words.add_argument('names', nargs='*')
    given = words.parse_args()
    crates = crates_of(TOP)
    chosen = [it for it in crates
              if (TOP / 'crates' / it / EDITS).is_file() and (not given.names or it in given.names)]
    if given.beside is None and not all(is_built(it) for name in chosen for it in below(name, crates)):
        subprocess.run(['rt', 'all', 'check'], cwd=TOP, stdin=subprocess.DEVNULL, stdout=subprocess.DEVNULL, check=True)
    with tempfile.TemporaryDirectory(prefix='proved-') as proved:
        passed, failed = try_crates(chosen, crates, given.jobs, Libraries(Path(proved), given.beside))
    print(f'{passed} passed, {failed} failed')
    return 1 if failed or not passed else 0


if __name__ == '__main__':
    sys.exit(main())
