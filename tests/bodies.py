"""Finds the functions of formatted code, and empties those of which nothing is asked in a check of others.

A function is known to those that call it by its contract alone. So where nothing is asked of it, its body may be one
that promises nothing and costs nothing, a call of `never`: a function that doesn't return, of which it isn't proved
that control never reaches its end.
"""
import re
from dataclasses import dataclass

# The head of a function, and that of an impl or a trait around it. (The body of a constant one is run by the compiler.)
HEAD = re.compile(r'^( *)(?:pub(?:\([a-z]+\))? )?(const )?(?:unsafe )?(?:extern "C" )?fn (\w+)', re.M)
AROUND = re.compile(r'^ *(?:unsafe )?(?:impl(?:<.*>)? (?:.* for )?|(?:pub(?:\([a-z]+\))? )?trait )(\w+)', re.M)
EMPTY = '    crate::never()\n'
NEVER = '\nfn never() -> ! {\n    unreachable!()\n}\n'
NEVER_GOALS = ('unreachable-requires', 'unreachable-unreachable')


@dataclass
class Function:
    """A function with a body: its file and names below the module, where its head begins, where the lines of its body
    begin and end, and whether it is a constant one and has a line of its own that says what is searched for."""

    file: str
    names: list[str]
    head: int
    begin: int
    end: int
    is_const: bool
    has_tactic: bool

    def is_at(self, path):
        """Whether this is the path of the function below the crate, or that of what stands in it, as a closure. One of an
        impl has its place below its type, wherever the impl stands; an impl of a trait has the names of its type and of
        the trait in one."""
        *of_type, name = self.names
        if of_type:
            return any(it.startswith(of_type[0]) and next_one == name for it, next_one in zip(path, path[1:]))
        module = [] if self.file == 'src/lib.rt' else self.file.removeprefix('src/').removesuffix('.rt').split('/')
        rest = path[len(module):]
        return path[:len(module)] == module and (rest[1:] if rest[:1] == ['fn'] else rest)[:1] == [name]


def functions_of(file, text):
    """The functions of a formatted file whose body has lines: its braces end the head or stand alone, below it."""
    heads, arounds = [*HEAD.finditer(text)], [*AROUND.finditer(text)]
    for number, head in enumerate(heads):
        stop = next((it.start() for it in heads[number + 1:] if len(it[1]) <= len(head[1])), len(text))
        own = re.compile(rf'^{head[1]}{{\n', re.M).search(text, head.end(), stop)
        begin = own or re.compile(r' \{\n').search(text, head.end(), stop)
        end = re.compile(rf'^{head[1]}}}$', re.M).search(text, head.end(), stop)
        if begin and end and begin.end() <= end.start():
            around = [it[1] for it in arounds if it.start() < head.start()][-1:] if head[1] else []
            yield Function(file, [*around, head[3]], head.start(), begin.end(), end.start(), head[2] is not None,
                           '#[tactic(' in text[:head.start()].rpartition('\n\n')[2])


def functions_in(crate):
    """The functions of the crate in this folder, none of which stands in another one."""
    for path in sorted((crate / 'src').glob('**/*.rt')):
        end = 0
        for it in functions_of(str(path.relative_to(crate)), path.read_text(encoding='utf-8')):
            if it.head >= end:
                yield it
                end = it.end


def may_be_empty(function, paths, places):
    """Whether nothing is asked of a function where something is asked of those at these paths and these places are
    turned."""
    is_turned = any(file == function.file and begin < function.end and function.head <= end
                    for file, begin, end, _ in places)
    return not (function.is_const or is_turned or any(function.is_at(it) for it in paths))
