#!/usr/bin/env python3
"""Builds and runs the two programs of docs/start.md, and compares what they print with the page.

Its words are the static library of partial_door and the kit's liblibc_c.a; without them those are taken that
bindings/library.sh and the kit have. It wants a C compiler, and cargo for the program in Rust. The last line is
'N passed, M failed'.
"""
import os
import re
import subprocess
import sys
import tempfile
from pathlib import Path

TOP = Path(__file__).resolve().parent.parent
PAGE = TOP / 'docs' / 'start.md'
MANIFEST = '''[package]
name = "counters"
version = "0.1.0"
edition = "2021"

[dependencies]
partial-door = {{ path = "{}" }}
'''


def program(language):
    """The one program of the page in this language."""
    [found] = re.findall(rf'^<!-- run by tests/start.py -->\n```{language}\n(.*?)^```$', PAGE.read_text(encoding='utf-8'),
                         re.M | re.S)
    return found


def printed(language):
    """What the page says that the program prints."""
    [found] = re.findall(rf'^<!-- printed by {language} -->\n\n((?:    .*\n)+)', PAGE.read_text(encoding='utf-8'), re.M)
    return re.sub('^    ', '', found, flags=re.M)


def run_c(folder, libraries):
    """What the program in C prints."""
    (folder / 'program.c').write_text(program('c'), encoding='utf-8')
    compiler = [os.environ.get('CC', 'cc'), '-Wall', '-Wextra', '-Werror', '-I', TOP / 'bindings' / 'c']
    subprocess.run([*compiler, 'program.c', *libraries, '-pthread', '-o', 'program'], cwd=folder, check=True)
    return subprocess.run(['./program'], cwd=folder, check=True, capture_output=True, text=True, timeout=60).stdout


def run_rust(folder, libraries):
    """What the program in Rust prints."""
    (folder / 'src').mkdir()
    (folder / 'src' / 'main.rs').write_text(program('rust'), encoding='utf-8')
    (folder / 'Cargo.toml').write_text(MANIFEST.format(TOP / 'bindings' / 'rust'), encoding='utf-8')
    named = {'PARTIAL_DOOR_LIB': str(libraries[0]), 'PARTIAL_DOOR_HEAP': str(libraries[1])}
    ran = subprocess.run(['cargo', 'run', '--release', '--offline', '--quiet'], cwd=folder, env=os.environ | named,
                         check=True, capture_output=True, text=True, timeout=600)
    return ran.stdout


def main(words):
    if words:
        libraries = [Path(word).resolve() for word in words]
    else:
        doc = subprocess.run(['rt', 'doc'], capture_output=True, text=True, check=True).stdout.strip()
        libraries = [TOP / 'crates/partial_door/out/libpartial_door.a', Path(doc).parent / 'c' / 'liblibc_c.a']
    failed = 0
    for language, run in (('C', run_c), ('Rust', run_rust)):
        with tempfile.TemporaryDirectory() as folder:
            try:
                given = run(Path(folder), libraries)
            except (subprocess.SubprocessError, OSError) as fault:
                given = f'{fault}\n{getattr(fault, "stderr", None) or ""}'
        if given != printed(language):
            failed += 1
            print(f'failed: docs/start.md in {language}:\n{given}')
    print(f'{2 - failed} passed, {failed} failed')
    return 1 if failed else 0


if __name__ == '__main__':
    sys.exit(main(sys.argv[1:]))
