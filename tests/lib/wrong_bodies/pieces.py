"""What a crate says, in pieces: of each the names that it is found by, and the names in it. By these it is told on which pieces the
result of an edit rests. What nothing there names, as a new function or definition, changes no sum."""
import functools
import glob
import hashlib
import os
import re

from lib.wrong_bodies.copies import is_left_whole, without_body
from lib.wrong_bodies.functions import IMPL, functions_of, impl_of, text_of, texts_of

WORD = re.compile(r'\w+')
# How a line begins that says nothing to the checker.
COMMENTS = ('//', '--')
# An item that others name.
ITEM = re.compile(r'^(?:pub(?:\([^)]*\))? )?(?:unsafe |ghost )?(?:const|enum|fn|static|struct|trait|type|union) (\w+)')
IMPORT = re.compile(r'^ *(?:pub(?:\([^)]*\))? )?(?:ghost )?use ')
MODULE = re.compile(r'^(?:pub(?:\([^)]*\))? )?mod \w+;$')
# A path to a definition or lemma, as the attributes of code have it.
ATTRIBUTE = re.compile(r'(\w+)::((?:specs|proofs)(?:::\w+)+)')
# Words before the name that a line of definitions defines.
BEFORE_NAMES = ('pub', 'abbrev', 'rec', 'record', 'data')


def without_comments(text):
    """The lines of a text that aren't empty and no comments."""
    return [line for line in text.split('\n') if line.strip() and not line.lstrip().startswith(COMMENTS)]


def prefixes_of(path):
    """A path of a definition, and those that lead to it: `crate.specs.Module.name` and `crate.specs.Module` and so on."""
    steps = path.split('.')
    return {'.'.join(steps[:number]) for number in range(3, len(steps) + 1)}


def names_in(crate, lines):
    """What these lines name: words, and paths of definitions."""
    text = '\n'.join(lines)
    names = set(WORD.findall(text))
    for line in lines:
        if line.startswith('Rattle.'):
            names |= prefixes_of(line.removeprefix('Rattle.'))
    for owner, path in ATTRIBUTE.findall(text):
        names |= prefixes_of(f'{crate if owner == "crate" else owner}.{path.replace("::", ".")}')
    return names


class Piece:
    """A piece of a crate. It counts where of each of these groups of names one is named."""

    def __init__(self, crate, groups, lines, more=()):
        self.groups, self.names = groups, names_in(crate, lines) | set(more)
        self.sum = hashlib.sha256('\n'.join([crate, *lines]).encode()).hexdigest()


def imports_of(lines):
    """The pairs of names and paths that the imports among these lines bring."""
    pairs = []
    for line in filter(IMPORT.match, lines):
        path, _, names = IMPORT.sub('', line).rstrip('; ').partition('{')
        for name in names.rstrip('}').split(',') if names else [re.split(r'::|\.', path)[-1]]:
            real, _, other = name.strip().partition(' as ')
            pairs.append((other or real, f'{path}{real}' if names else path))
    return pairs


def with_imports(lines, imports):
    """These lines of a file, and the paths of those of its imports that they use. An operator's name has holes."""
    text = '\n'.join(lines)
    words = {*WORD.findall(text), *text.split()}
    used = {path for name, path in imports if name in words or '◌' in name and all(it in text for it in name.split('◌'))}
    return [*lines, *sorted(used)]


def items_of(lines):
    """The items of a laid out file without its functions: each begins at the margin after an empty line."""
    items = []
    for line, before in zip(lines, ['', *lines]):
        if line.strip() and not before.strip() and line[0] not in ' })' or not items:
            items.append([])
        if line.strip():
            items[-1].append(line)
    return [item for item in items if item]


def groups_of_item(item):
    """The groups of words that name an item: those of its type or constant; what has none of these always counts."""
    found = next((found for line in item for found in (ITEM.match(line), IMPL.match(line)) if found), None)
    if not found:
        return []
    return [{found[1]}] if found.re is ITEM else [{found[3], found[2] or found[3]}]


def taken(path, texts, folder):
    """The functions of a file that are taken by their contracts."""
    return [it for it in functions_of(path, texts) if it.can_be_taken and not is_left_whole(folder, it)]


def function_lines(function, texts, text):
    """What a text of a function's file says of it, with the head of its `impl` block and the imports that it uses."""
    lines, above = text.split('\n'), impl_of(function, texts)
    own = without_comments('\n'.join(lines[function.first - 1:function.last]))
    return with_imports([above, *own] if above else own, imports_of(lines))


def function_piece(crate, function, texts):
    """What a crate promises by a function. One of a trait is called without being named, so its type counts, or the trait."""
    above = impl_of(function, texts)
    found = IMPL.match(above) if above else None
    if found and found[2]:
        groups = [{found[3], found[2]}]
    else:
        groups = [{f'fn {function.modules[-1]}'}, *([{found[3]}] if found else [])]
    return Piece(crate, groups, function_lines(function, texts, without_body(texts[function.path], function)))


def code_pieces(crate, folder):
    """The pieces of a crate's code: each function without its body, and its items."""
    texts = texts_of(folder)
    for path in sorted(texts):
        lines = texts[path].split('\n')
        imports, functions = imports_of(lines), taken(path, texts, folder)
        yield from (function_piece(crate, it, texts) for it in functions)
        for it in functions:
            lines[it.first - 1:it.last] = [''] * (it.last - it.first + 1)
        rest = [line for line in lines if not line.lstrip().startswith(COMMENTS) and not IMPORT.match(line) and not MODULE.match(line)]
        yield from (Piece(crate, groups_of_item(item), with_imports(item, imports)) for item in items_of(rest))


def antt_files(folder, *parts):
    """The files of definitions or proofs in a folder of a crate, by their paths in it."""
    files = glob.glob(os.path.join(folder, *parts, '**', '*.antt'), recursive=True)
    return sorted(os.path.relpath(file, folder) for file in files)


def antt_lines(folder, path):
    """What a file of definitions or proofs says."""
    return [path, *without_comments(text_of(os.path.join(folder, path)))]


def defined_in(lines):
    """The names that these lines of a file of definitions define."""
    for line in lines:
        words = line.split()
        while words and words[0] in BEFORE_NAMES:
            words.pop(0)
        if len(words) > 1 and (words[1] == ':' or 'record ' in line or 'data ' in line):
            yield words[0]


def antt_pieces(crate, folder, path):
    """The pieces of a file of definitions or lemmas: its paragraphs, found by what they define; one that defines nothing counts
    where another of its file does."""
    module = '.'.join([crate, *os.path.splitext(path)[0].split(os.sep)])
    lines = [line for line in text_of(os.path.join(folder, path)).split('\n') if not line.lstrip().startswith('--')]
    imports, paragraphs = imports_of(lines), [[]]
    for line in lines:
        if not line.strip():
            paragraphs.append([])
        elif not IMPORT.match(line):
            paragraphs[-1].append(line)
    defined = {name for paragraph in paragraphs for name in defined_in(paragraph)}
    for paragraph in filter(None, paragraphs):
        names, text = set(defined_in(paragraph)), '\n'.join(paragraph)
        words = {*WORD.findall(text), *text.split()}
        of_file = {f'{module}.{name}' for name in defined if name in words or '◌' in name and all(it in text for it in name.split('◌'))}
        groups = [{f'{module}.{name}' for name in names} or {module}]
        yield Piece(crate, groups, with_imports(paragraph, imports), {module, *of_file})
    for name, target in imports_of([line for line in lines if line.startswith('pub use ')]):
        yield Piece(crate, [{f'{module}.{name}'}], [target])


@functools.cache
def promises_of(crate, folder):
    """The pieces of what a crate promises: its definitions, its types, and its functions without their bodies."""
    return [*code_pieces(crate, folder), *(it for path in antt_files(folder, 'specs') for it in antt_pieces(crate, folder, path))]


@functools.cache
def lemmas_of(crate, folder):
    """The pieces of a crate's proofs that are of no function that is taken by its contract."""
    texts = texts_of(folder)
    homes = {os.path.join('proofs', *it.modules) for path in texts for it in taken(path, texts, folder)}
    paths = [path for path in antt_files(folder, 'proofs') if os.path.dirname(path) not in homes]
    return [it for path in paths for it in antt_pieces(crate, folder, path)]


def reached(pieces, names):
    """Of these pieces the sums of those that count where these names are named, and of those that count by what these name in turn.
    A contract names no function, so only the functions count that the first names have."""
    names, left, sums = {*names, *(f'fn {name}' for name in names)}, pieces, []
    while True:
        counts, others = [], []
        for piece in left:
            (others if any(map(names.isdisjoint, piece.groups)) else counts).append(piece)
        if not counts:
            return sorted(sums)
        sums += [piece.sum for piece in counts]
        names.update(*(piece.names for piece in counts))
        left = others
