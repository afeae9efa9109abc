"""What came of a crate's edits, as `wrong.kept` beside `wrong.edits` has it: how many edits there are, and of each that was tried its
result with the sum of what that rests on. tests/wrong-bodies alone writes it."""
import os

from lib.wrong_bodies.functions import text_of
from lib.wrong_bodies.sums import sum_of_edit

HEAD = '# Made by tests/wrong-bodies: what came of each edit, and the sum of what that rests on.\n'


class Kept:
    """The results that are kept of a crate's edits."""

    def __init__(self, crate, edits):
        self.crate, self.edits = crate, edits
        self.file = os.path.join(crate.folder, 'wrong.kept')
        self.number, self.results = 0, {}
        for line in text_of(self.file).splitlines() if os.path.exists(self.file) else []:
            words = line.split()
            if words[0] == 'edits':
                self.number = int(words[1])
            elif words[0] in ('refused', 'weak'):
                self.results[words[1]] = (words[0], words[2])

    def name_of(self, edit):
        """An edit's name without that of its crate."""
        return edit.name.split('/', 1)[1]

    def has(self, edit):
        """Whether an edit was tried over all that its result rests on."""
        return self.results.get(self.name_of(edit), ('', ''))[1] == sum_of_edit(self.crate, edit)

    def is_weak(self, edit):
        """Whether an edit is listed as one whose refusal is weak."""
        return self.results.get(self.name_of(edit), ('', ''))[0] == 'weak'

    def is_refused(self, edit):
        """Whether an edit is listed as refused, over whatever text."""
        return self.results.get(self.name_of(edit), ('', ''))[0] == 'refused'

    def lacks(self):
        """How many edits are missing of those that were there."""
        return max(0, self.number - len(self.edits))

    def keep(self, results, is_lowered=False):
        """Keeps these results of edits by their whole names, and how many edits there are. That number falls only where this is asked for."""
        for edit in self.edits:
            if edit.name in results:
                self.results[self.name_of(edit)] = (results[edit.name], sum_of_edit(self.crate, edit))
        names = {self.name_of(edit) for edit in self.edits}
        number = len(self.edits) if is_lowered else max(self.number, len(self.edits))
        with open(self.file, 'w', encoding='utf-8') as file:
            file.write(f'{HEAD}edits {number}\n')
            for name, (result, rests_on) in sorted(self.results.items()):
                if name in names:
                    file.write(f'{result} {name} {rests_on}\n')
