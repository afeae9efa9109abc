"""The answers of a proof file: which no longer fit a body, and the file without them, so that their goals are left to the search."""
import re

# A definition of a proof file begins so, with its type.
SIGNATURE = re.compile(r'^(?:pub )?([^\s:]+) : ')


def blocks_of(text):
    """The text of a proof file in pieces: of each the name that it defines, or None, and its lines. A comment stands with what
    it is of."""
    pieces, waiting = [], []
    for line in text.split('\n'):
        found = SIGNATURE.match(line)
        if found:
            pieces.append((found[1], [*waiting, line]))
            waiting = []
        elif line.startswith('--'):
            waiting.append(line)
        elif waiting or not pieces or line.startswith('use '):
            pieces.append((None, [*waiting, line]))
            waiting = []
        else:
            pieces[-1][1].append(line)
    return [*pieces, (None, waiting)]


def without(text, names):
    """The text of a proof file without the definitions of these names, and without those that speak of one of them; and the names of
    all that are gone."""
    pieces, gone = blocks_of(text), set(names)
    is_growing = True
    while is_growing:
        words = re.compile('|'.join(rf'(?<![^\s(){{}},;.]){re.escape(name)}(?![^\s(){{}},;.])' for name in sorted(gone)))
        more = {name for name, lines in pieces if name and name not in gone and words.search('\n'.join(lines[1:]))}
        gone |= more
        is_growing = bool(more)
    return '\n'.join(line for name, lines in pieces if name not in gone for line in lines), gone
