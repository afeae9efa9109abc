"""The paths of the repository that its pages name between backquotes, and which of them aren't there."""
import fnmatch
import functools
import os
import re

from lib.places import TOP

# The pages that say how to work on the repository.
PAGES = ['README.md', 'docs/ARCHITECTURE.md', 'docs/CONTRIBUTING.md', 'docs/TESTING.md']
# What the name of a file of the repository ends in; one that ends in `.cfg` is an operator's as often.
ENDS = ('.rt', '.antt', '.py', '.edit', '.edits', '.c', '.runs', '.lines', '.sessions', '.conditions', '.damaged', '.prefixes', '.script')
# Folders that aren't committed.
MADE = ('out', '.git', '__pycache__')


@functools.cache
def tree():
    """Each file and folder of the repository, as a path from its top."""
    found = []
    for at, folders, files in os.walk(TOP):
        folders[:] = [name for name in folders if name not in MADE]
        found += [os.path.relpath(os.path.join(at, name), TOP) for name in folders + files]
    return found


@functools.cache
def crates():
    """The names of the crates."""
    return set(os.listdir(os.path.join(TOP, 'crates')))


def is_path(word):
    """Whether a word looks like a path of the repository: it begins with one of its folders, or ends as one of its files does."""
    first = word.split('/')[0]
    if first in MADE or '/out/' in word or word.startswith('/'):
        return False
    return word.endswith(ENDS) or '/' in word and (first in crates() or os.path.isdir(os.path.join(TOP, first)))


def patterns_of(word, named):
    """Where a path may be, with these crates named beside it."""
    word = word.rstrip('/').replace('NAME', '*')
    first = word.split('/')[0]
    if os.path.isdir(os.path.join(TOP, first)):
        return [word]
    if first in crates():
        return [f'crates/{word}']
    if '/' in word:
        return [f'crates/{crate}/{word}' for crate in named or '*']
    return [f'*/{word}']


def missing_on(page):
    """What a page names and isn't there, with its line. A file of a crate stands on the line that names the crate, or on the one before."""
    with open(os.path.join(TOP, page), encoding='utf-8') as text:
        lines = [' '.join(re.findall(r'`([^`]+)`', line)).split() for line in text]
    for number, (words, next_words) in enumerate(zip(lines, [*lines[1:], []]), 1):
        named = crates().intersection(words + next_words)
        for word in filter(is_path, words):
            if not any(fnmatch.filter(tree(), pattern) for pattern in patterns_of(word, named)):
                yield f"{page}:{number} names {word}, which isn't there"


def missing_paths():
    """What the pages name and isn't there."""
    for page in PAGES:
        yield from missing_on(page)
