"""Finds what the modules of a crate's specs/ and proofs/ import and declare, and what of them depends on what.

A module is a file with lines of imports and, below them, parts: declarations at the left edge, or blocks of them. A part is
taken to name what any of its words is spelled like. So what is found to be needed may be more than is, and is never less.
"""
import re
from dataclasses import dataclass

# The line of an import: whether it is public, and what it names.
IMPORT = re.compile(r'^(pub )?use (.*)$', re.M)
# A name, or a word beside names.
WORD = re.compile(r'[^\s(){}\[\];,.]+')
# The words before a declaration, its names and its type, which the head of a block doesn't have, and a comment.
HEAD = re.compile(r'^ *((?:(?:pattern|unfoldable|abbrev|pub|data|record|module) )*)([^(){}\[\]=:;,]*)'
                  r'(?:[({].*[)}] )?(:( |$))?')
COMMENT = re.compile(r'(?<!\S)--.*')


@dataclass(frozen=True)
class Import:
    """One name that a module imports: the path before it, the name, or none where it is the module at the path, the name
    that it has here, and whether it is passed on."""

    path: str
    name: str | None
    here: str | None
    is_public: bool

    def here_now(self):
        """The name that it has here, that of a module too."""
        return self.here or self.path.rpartition('.')[2]


def imports_of(text):
    """What the lines of imports name, one by one."""
    return [Import(path, name, here, line[1] is not None)
            for line in IMPORT.finditer(text) for path, name, here in leaves_of('', line[2])]


def leaves_of(path, tree):
    """The names below a path, each with its path and the name that it has here."""
    head, brace, rest = tree.partition('.{')
    if brace:
        for part in parted(rest.removesuffix('}')):
            yield from leaves_of(joined(path, head), part)
        return
    whole, _, here = tree.partition(' as ')
    if not path:
        yield whole, None, here or None
        return
    before, _, name = whole.rpartition('.')
    yield joined(path, before), name, here or name


def joined(path, name):
    return f'{path}.{name}' if path and name else path or name


def parted(text):
    """The parts between the commas outside of braces."""
    parts, depth = [''], 0
    for sign in text:
        depth += {'{': 1, '}': -1}.get(sign, 0)
        if sign == ',' and depth == 0:
            parts.append('')
        else:
            parts[-1] += sign
    return [it.strip() for it in parts if it.strip()]


def head_of(line):
    """Whether a line begins what has names of its own below it, the names that it declares, and the one that it begins
    with."""
    found = HEAD.match(line)
    names, marks = found[2].split(), found[1].split()
    is_type = 'data' in marks or 'record' in marks
    return is_type or 'module' in marks, names if found[3] else names[:is_type], names[0] if names else None


class Part:
    """A declaration at the left edge of a module, or a block of them: its text, all names that it declares, and the words in
    it."""

    def __init__(self, text):
        self.text = text
        lines = COMMENT.sub('', text).splitlines()
        self.words = {word for line in lines for word in WORD.findall(line)}
        self.names, deep = set(), 0
        for line in lines:
            depth = len(line) - len(line.lstrip())
            if line.strip() and depth <= deep:
                holds, names, _ = head_of(line)
                deep = depth + 2 if holds else depth
                self.names.update(names)


def parts_of(text):
    """What stands above the declarations of a module, and these. A line at the left edge that begins with the name of the
    declaration before it, or with none, goes on with that one; comments stand above what they belong to."""
    above = max((it.end() + 1 for it in IMPORT.finditer(text)), default=0)
    texts, comments, begin = [], '', None
    for line in text[above:].splitlines(keepends=True):
        if line.startswith('--'):
            comments += line
            continue
        holds, _, first = head_of(line)
        goes_on = line[0] in ' \n)}]' or not holds and first in ('unfolding', begin)
        if goes_on and texts:
            texts[-1] += comments + line
        else:
            texts.append(comments + line)
            begin = None if holds else first
        comments = ''
    return text[:above], [Part(it) for it in texts]


class Modules:
    """The modules of a crate's specs/ and proofs/: their imports and parts, and which of them names what."""

    def __init__(self, crate):
        self.crate, self.above, self.parts = crate, {}, {}
        for folder in ('specs', 'proofs'):
            for path in sorted((crate / folder).glob('*.antt')):
                if path.stem != 'Lib':
                    module = f'{folder}.{path.stem}'
                    self.above[module], self.parts[module] = parts_of(path.read_text(encoding='utf-8'))
        self.imports = {it: imports_of(above) for it, above in self.above.items()}
        self.named = {module: {part: self.named_by(module, part) for part in parts} for module, parts in self.parts.items()}

    def origin(self, path, name):
        """The module of the crate that declares a name at a path, and the path from there, or nothing where it is none of
        the crate's files. Where a module passes the name on, that is another one."""
        steps = path.split('.') + ([name] if name else [])
        module = '.'.join(steps[2:4])
        if steps[:2] != ['Rattle', self.crate.name] or module not in self.parts:
            return None
        for it in self.imports[module]:
            if it.is_public and steps[4:] and it.here == steps[4]:
                further = [*it.path.split('.'), it.name, *steps[5:]]
                return self.origin('.'.join(further[:-1]), further[-1])
        return module, steps[4:]

    def named_in(self, one, words):
        """What an import names of the crate, with its module, where these words are used, or none where it isn't used."""
        found = self.origin(one.path, one.name) if one.here_now() in words else None
        if found is None:
            return []
        module, steps = found
        return [(module, it) for it in (steps[:1] if steps else words)]

    def named_by(self, module, part):
        """What a part of a module names of the crate, each with its module."""
        own = set().union(*[it.names for it in self.parts[module]])
        return {(module, it) for it in part.words & own}.union(
            *[self.named_in(one, part.words) for one in self.imports[module]])

    def needed(self, imports):
        """The parts that these imports need, directly or not, of each module."""
        found, seen, left = {}, set(), [it for one in imports for it in self.named_in(one, {one.here_now()})]
        while left:
            module, name = left.pop()
            if (module, name) in seen:
                continue
            seen.add((module, name))
            for part in self.parts[module]:
                if name in part.names and part not in found.setdefault(module, []):
                    found[module].append(part)
                    left += self.named[module][part]
        return found

    def copied(self, changed, imports):
        """The parts that these imports need, of the modules whose parts among them depend on the changed module."""
        needed = self.needed(imports)
        names = {module: {it for part in parts for it, _ in self.named[module][part]} for module, parts in needed.items()}
        found, left = set(), [changed] if changed in needed else []
        while left:
            found.add(left.pop())
            left += [it for it in names if it not in found and not found.isdisjoint(names[it])]
        return {it: parts for it, parts in needed.items() if it in found}

    def copy_of(self, module, copied, mark):
        """The imports of a module in the copy, and its declarations that are copied."""
        kept = ''.join(it.text for it in self.parts[module] if it in copied[module])
        words = set().union(*[it.words for it in copied[module]])
        return self.rewritten(self.above[module], copied, mark, words), kept

    def rewritten(self, above, copied, mark, words=None):
        """Imports that name the copies, whose names begin with this mark; of the copies those alone that these words
        name."""
        def lines_of(found):
            paths = {}
            for it in imports_of(found[0]):
                path, name, is_copied = self.in_copy(it, copied, mark)
                here = it.here_now()
                if is_copied and words is not None and here not in words:
                    continue
                if name is None:
                    paths[path if path.endswith(f'.{here}') else f'{path} as {here}'] = None
                else:
                    paths.setdefault(path, []).append(name if here == name else f'{name} as {here}')
            return '\n'.join(f'{found[1] or ""}use {path}' + (f'.{{{", ".join(names)}}}' if names else '')
                             for path, names in paths.items())

        return IMPORT.sub(lines_of, above)

    def in_copy(self, it, copied, mark):
        """The path and the name of an import, in the copy where it is declared in one of the copied modules, and whether it
        is."""
        found = self.origin(it.path, it.name)
        if found is None or found[0] not in copied:
            return it.path, it.name, False
        folder, _, file = found[0].partition('.')
        steps = ['Rattle', self.crate.name, folder, f'{mark}_{file}', *found[1]]
        return ('.'.join(steps[:-1]), steps[-1], True) if it.name else ('.'.join(steps), None, True)
