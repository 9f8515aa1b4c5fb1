#!/usr/bin/env python3
"""Tests what tests/covered.py takes for a public function or a law, and for one that an edit names. The last line is
'N passed, M failed'.
"""
import sys
import tempfile
from pathlib import Path

sys.path.insert(0, str(Path(__file__).resolve().parent))
import covered  # noqa: E402
from definitions import write  # noqa: E402

BODY = '\n    ensures { result ≡ 1 }\n{\n    1\n}\n'
FILES = {
    'src/lib.rt': 'mod hidden;\npub mod law;\npub mod open;\n\npub use hidden::{Passed, passed};\npub use law::{holds};\n',
    'src/hidden.rt': f'''\
pub fn passed() -> u64{BODY}
pub fn kept() -> u64{BODY}
pub extern "C" fn exported() -> u64{BODY}
impl Passed {{
    pub fn given(&self) -> u64
        ensures {{ result ≡ 1 }}
    {{
        1
    }}

    fn own(&self) -> u64
        ensures {{ result ≡ 1 }}
    {{
        1
    }}
}}

impl Kept {{
    pub fn given(&self) -> u64
        ensures {{ result ≡ 1 }}
    {{
        1
    }}
}}
''',
    'src/open.rt': f'pub mod deep;\nmod deep_hidden;\n\npub fn seen() -> u64{BODY}\nfn unseen() -> u64{BODY}\npub fn says_nothing() -> u64 {{\n    1\n}}\n',
    'src/open/deep.rt': f'pub const fn deepest() -> u64{BODY}',
    'src/open/deep_hidden.rt': f'pub fn hidden() -> u64{BODY}',
    'src/law.rt': 'pub fn holds()\n    ensures { Holds }\n{}\n\npub fn other_holds()\n    ensures { Holds }\n{}\n',
    'specs/Open.antt': 'pub one : ℕ\none = 1\n',
}
CODE = 'edit: code\nrefused: open::seen\nby: returns\nfile: src/open.rt\nold: mod deep_hidden;\nnew: mod other;\n\n'
METHOD = 'edit: method\nrefused: hidden::Passed::given\nby: returns\nfile: src/open.rt\nold: mod deep_hidden;\nnew: mod other;\n\n'
LAW = 'edit: law\nrefused: law::holds\nfile: specs/Open.antt\nold: one = 1\nnew: one = 2\n'
MISSING = ['passed', 'exported', 'deepest', 'law::other_holds']


def cases():
    """The name of each case, and whether it holds."""
    with tempfile.TemporaryDirectory() as room:
        crate = Path(room) / 'low'
        for path, text in FILES.items():
            write(crate / path, text)
        yield 'public functions are found', sorted('::'.join(it.names) for it in covered.public_functions(crate)) == [
            'Passed::given', 'deepest', 'exported', 'passed', 'seen']
        yield 'laws are found', [*covered.laws(crate)] == ['law::holds', 'law::other_holds']

        def missing(text, without=()):
            """What is wrong, with these edits, where these functions can have none."""
            write(crate / 'edits.txt', text)
            return [it for it in covered.uncovered(crate, without) if it]

        found = missing(CODE + METHOD + LAW)
        yield 'each without an edit is named', len(found) == len(MISSING) and all(
            any(f' {name}' in it for it in found) for name in MISSING)
        yield 'those with one are not', len(missing('')) == len(MISSING) + 3
        yield 'one that can have none needs none', len(missing(CODE + METHOD + LAW, {'passed': ''})) == len(MISSING) - 1
        yield 'and has none', any('seen has an edit' in it for it in missing(CODE, {'seen': ''}))
        yield 'one that is not there is named', any('no public function kept' in it for it in missing(CODE, {'kept': ''}))
    for crate, names in covered.WITHOUT.items():
        yield f'those of {crate} have a reason', all(reason for reason in names.values())


def main():
    results = list(cases())
    failed = [name for name, holds in results if not holds]
    for name in failed:
        print(f'failed: {name}')
    print(f'{len(results) - len(failed)} passed, {len(failed)} failed')
    return bool(failed)


if __name__ == '__main__':
    sys.exit(main())
