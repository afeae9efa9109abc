"""Edits that make a body wrong, as crates/*/wrong.edits has them."""
import copy
import os
import re

from lib.wrong_bodies.functions import can_be_copied, changed_at, text_of, texts_of


class Edit:
    """A wrong body: what it changes, and the functions of which a goal that isn't proved shows that it is refused. Of each of
    these, too, the answers of its proof file that are left out."""

    def __init__(self, name, lines, texts):
        self.name, self.lines, self.changes, self.functions, self.copied = name, lines, [], [], None
        self.fault = self.read(lines, dict(texts))
        self.dropped = [set() for _ in self.functions]

    def drop(self, names):
        """Leaves out these answers too, of each function in turn."""
        for dropped, more in zip(self.dropped, names):
            dropped |= more

    def read(self, lines, texts):
        """Reads the changes, and the functions that they are of; says what is wrong with the edit, if anything is."""
        path, old = None, None
        for line in lines:
            if line.startswith('file: '):
                path = line[len('file: '):]
                if path not in texts:
                    return f'{path} is no file of the code'
            elif line.startswith('old: '):
                old = line[len('old: '):]
            elif line.startswith('new:'):
                if not path or not old:
                    return "a line 'new:' without 'file:' and 'old:'"
                if texts[path].count(old) != 1:
                    return f"its text '{old.strip()}' stands in {path} {texts[path].count(old)} times"
                at = texts[path][:texts[path].index(old)].count('\n') + 1
                self.functions += [it for it in changed_at(path, at, texts) if it not in self.functions]
                self.changes.append((path, at, old, line[len('new: '):]))
                texts[path] = self.applied(path, texts[path], self.changes[-1:])
                old = None
            else:
                return f"a line that isn't read: {line}"
        if not self.changes:
            return "no pair of lines 'old:' and 'new:'"
        return None if self.functions else 'it changes no function'

    def is_at(self, path, line):
        """Whether a line lies in a function that this changes."""
        return any(it.is_at(path, line) for it in self.functions)

    def is_of_bodies(self):
        """Whether all that this changes lies in functions, and none of it is a constant that others may name."""
        return all(self.is_at(path, at) for path, at, _, _ in self.changes)

    def beside(self, others, texts):
        """This edit as it can be applied at once with others: as it is, where they change other functions, or to a copy of
        its function; None where neither can be."""
        of_same = [it for it in others if any(own in (it.copied or it).functions for own in self.functions)]
        if not of_same:
            return self
        if len(self.functions) > 1 or not can_be_copied(self.functions[0], texts):
            return None
        if not all((it.copied or it).is_of_bodies() for it in [self, *of_same]):
            return None
        tried = copy.copy(self)
        tried.copied, tried.functions = self, [self.functions[0].renamed(f'of_edit_{len(others)}')]
        return tried

    def applied(self, path, text, changes=None):
        """The text of a file with these changes, or all: each is within its line, so that lines keep their numbers."""
        lines = text.split('\n')
        for file, at, old, new in changes or self.changes:
            if file == path:
                lines[at - 1] = lines[at - 1].replace(old, new)
        return '\n'.join(lines)


def blocks_of(file):
    """The blocks of a file of edits: of each its name, the lines that say why it is wrong, and the lines of the edit."""
    before, *blocks = re.split(r'^== ', text_of(file), flags=re.MULTILINE)
    if before:
        raise ValueError(f'{file}: text above the first block: {before.strip()}')
    for block in blocks:
        name, *lines = block.rstrip('\n').split('\n')
        at = next((number for number, line in enumerate(lines) if line.startswith('file: ')), len(lines))
        yield name, lines[:at], lines[at:]


def edits_of(crate, file):
    """The edits of a file, if it is there."""
    texts, edits = texts_of(crate.folder), []
    for name, why, lines in blocks_of(file) if os.path.exists(file) else []:
        edit = Edit(f'{crate.name}/{name}', lines, texts)
        if len(why) != 1:
            edit.fault = edit.fault or 'it has no line, or several, that say why it is wrong'
        if edit.name in [other.name for other in edits]:
            edit.fault = 'another one has this name'
        edits.append(edit)
    return edits


def unchanged(edit):
    """An edit of the same functions that changes nothing."""
    same = Edit(edit.name, [], {})
    same.functions, same.fault, same.dropped = edit.functions, edit.fault, [set() for _ in edit.functions]
    return same
