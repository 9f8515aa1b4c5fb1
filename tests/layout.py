#!/usr/bin/env python3
"""Looks for sizes and offsets of the memory's words that don't come from `partial_words`.

That crate has the one layout of records, views, announcements and lists. All others name its sizes and places:
`initial_words`, `full_record_size`, `value_word`, `announcement_size` and so on. The code, definitions and proofs of the
crates, but for `partial_words` and tests, are searched for arithmetic with the numbers of the layout. Places where such a
number means something else stand in ALLOWED, each with its reason; one that is gone from its file is a fault too. The
last line is 'N passed, M failed', one for each file and for each allowed place.
"""
import re
import sys
from pathlib import Path

TOP = Path(__file__).resolve().parent.parent
OWN = 'partial_words'

# The first word of a record, a view, an announcement or a list, by the name of a variable or a field, or by a term.
WORD = r"(?<!- )(?<![\w.'])(?:[\w']+\.)*(?:at|stamp|reference|record|view|announcement)(?![\w.'(])"
TERM = r"\b(?:stamp_of|initial_stamp|initial_record|view_of|prev_of|unsealed)(?: [\w.']+| \([^()]*\))+"
# A count of components, of pairs or of indices, and the number of components where no function takes it.
COUNT = r"\(?(?:\w+::from\()?(?:length |[\w']+\.)*(?:m|count|components?|values|pairs|indices|asked|named|left|j|n)\b"
COMPONENTS = r"(?:^\s*|[(\[{+=≤<>≡→:,] ?)(?:[\w']+\.)+m"
INDICES = r"length \(?(?:[\w']+\.)*(?:asked|indices|named)\b"
PATTERNS = {
    'words of plain records': r"(?<![\w.])3 \* (?!\(?(?:[\w']+\.)*ports\b)|\* 3\b|[%/] 3\b",
    'words of a record with its view': rf'(?<![\w.])4 \+ 2 \*|2 \* {COUNT} \+ 4\b',
    'words of a view or a list': rf'(?<![\w.])[12] \+ 2 \* {COUNT}',
    'a word after the first one': rf'(?:{WORD}(?: as \w+)?|{TERM}|from\((?:[\w.]+\.)?(?:at|stamp)\)) \+ [1-4]\b',
    'a word after a reference that is loaded': r"(?:slice_index|get_or) [\w']+ \w+(?: 0)? \+ [23]\b",
    'pairs after a word': rf'{WORD} \+ 2 \*',
    'words of an announcement': rf'(?<![\w.])1 \+ {INDICES}|{INDICES} \+ 1\b',
    'words after those of the components': rf'(?:{COMPONENTS}|\bm\(\)) \+ [1-4]\b|\bm(?:\(\))? - [1-4]\b',
    'words of the greatest list': r'(?:\.slots|\bslots\(\)) \+ 2\b',
    'the size of a record': r'\bsize = [34]\b|(?<![\w.])[34] [<≤] (?:record_size|result\b|\(block_at)|λ _\. 3\)'
                            r'|(?<![\w.])[ikn] < 3\b|\bk - [34]\b',
}

# The places in which a number means something else: the file, what stands there, and why.
STAMPS = 'stands below partial_words, and speaks of stamps: the initial ones are three apart'
BOUND = "a bound of steps, as the call's law says it"
ALLOWED = [
    ('partial_model/specs/History.antt', ['o.first + 3 * j'], STAMPS),
    ('partial_model/specs/Inner/Checks.antt', ['(s - o.first) % 3', '(s - o.first) / 3'], STAMPS),
    ('partial_model/proofs/CheckLaws.antt', ['(s - o.first) % 3', '(s - o.first) / 3', 'o.first + 3 * j'], STAMPS),
    ('partial_model/src/history.rt', ['opening.first + 3 * u64::from(component)'], STAMPS),
    ('partial_model/src/checker/answers.rt', ['(stamp - first) % 3', '(stamp - first) / 3'], STAMPS),
    ('partial_model/src/checker/entries.rt', ['(stamp - first) % 3', '(stamp - first) / 3'], STAMPS),
    ('partial_active/specs/GetSet.antt', ['(s.m + 3)', '(s.m + 2)'], BOUND),
    ('partial_active/specs/ActiveSet.antt', ['(s.m + 3)'], BOUND),
    ('partial_active/proofs/Active.antt', ['(s.m + 3)'], BOUND),
    ('partial_active/proofs/Answered.antt', ['(s.m + 2)', '+ s.m + 2', '+ p.0.sizes.m + 2'], BOUND),
    ('partial_active/proofs/Walk.antt', ['(s.m + 2)'], BOUND),
    ('partial_replay/proofs/RunSteps.antt', ['z.m + 3', 'z.m + 2'], BOUND),
    ('partial_long_lived/specs/Bounds.antt', ['3 * r + 1'], BOUND),
    ('partial_long_lived/proofs/Counts.antt', ['3 * i', '3 * (i + 1)', '3 * n'], BOUND),
    ('partial_long_lived/proofs/clear/clear/Invariants.antt', ['1 + 3 * l.port'], BOUND),
    ('partial_long_lived/proofs/unchanged/unchanged/Invariants.antt', ['4 + 2 * l.k'], BOUND),
    ('partial_long_lived/src/calls.rt', ['4 + 2 * length which.now'], BOUND),
    ('partial_long_lived/src/double_collect.rt', ['3 * length which.now + 1'], BOUND),
    ('partial_long_lived/src/unchanged.rt', ['4 + 2 * length which.now'], BOUND),
    ('partial_door/specs/Calls.antt', ['4 + 2 * length which'], BOUND),
    ('partial_picture/src/words.rt', ['word - m - 4'], 'the number of a slot, by its word'),
    ('partial_picture/specs/Words.antt', ['w - s.m - 4'], 'the number of a slot, by its word'),
    ('partial_pipeline/specs/Stages.antt', ['m.about.sizes.m + 1'], 'a port for each component, and one more'),
    ('partial_pipeline/proofs/Watching.antt', ['m.about.sizes.m + 1'], 'a port for each component, and one more'),
]


def code(path, text):
    """The lines of a file with their numbers, without comments."""
    mark = '--' if path.suffix == '.antt' else '//'
    for number, line in enumerate(text.split('\n'), 1):
        yield number, '' if line.lstrip().startswith(mark) else line.split(f' {mark} ')[0]


def found(line):
    """What the patterns find in a line."""
    return [name for name, pattern in PATTERNS.items() if re.search(pattern, line)]


def faults_of(name, text, allowed):
    """The lines of a file that have arithmetic of the layout and aren't allowed, each as its number and its reasons."""
    here = [fragment for path, fragments, _ in allowed if path == name for fragment in fragments]
    for number, line in code(Path(name), text):
        for fragment in here:
            line = line.replace(fragment, '')
        reasons = found(line)
        if reasons:
            yield number, reasons


def judged(texts, allowed):
    """How many files and allowed places pass, and what is wrong with the others."""
    passed, faults = 0, []
    for name, text in sorted(texts.items()):
        wrong = list(faults_of(name, text, allowed))
        passed += not wrong
        faults += [f'crates/{name}:{number}: {", ".join(reasons)}' for number, reasons in wrong]
    for name, fragments, _ in allowed:
        lines = [line for _, line in code(Path(name), texts.get(name, ''))]
        gone = [fragment for fragment in fragments if not any(fragment in line for line in lines)]
        passed += not gone
        faults += [f'crates/{name}: no line has "{fragment}", which is allowed there' for fragment in gone]
    return passed, faults


def texts_of(crates):
    """The text of each file of code, definitions and proofs, by its path within the crates."""
    texts = {}
    for pattern in ('*/src/**/*.rt', '*/specs/**/*.antt', '*/proofs/**/*.antt'):
        for path in crates.glob(pattern):
            name = path.relative_to(crates)
            if name.parts[0] != OWN and not any('tests' in part for part in name.parts):
                texts[str(name)] = path.read_text(encoding='utf-8')
    return texts


def main():
    texts = texts_of(TOP / 'crates')
    passed, faults = judged(texts, ALLOWED)
    if not texts:
        faults.append('there is no file')
    print('\n'.join(faults + [f'{passed} passed, {len(faults)} failed']))
    return bool(faults)


if __name__ == '__main__':
    sys.exit(main())
