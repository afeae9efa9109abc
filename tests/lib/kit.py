"""What tests/wrong-bodies takes from `rtlib`, the kit's own module beside `rt`: which crates there are, and which words a check
of one takes. That module is private to the kit, so that another kit may change it. Nothing else here imports it, and what is
taken of it is all in this file."""
import functools
import os
import shutil
import subprocess
import sys

KIT = os.path.dirname(os.path.dirname(os.path.realpath(shutil.which('rt') or 'rt')))
sys.path.insert(0, os.path.join(KIT, 'bin'))
import rtlib  # noqa: E402

# The folders of a crate that a check reads.
PARTS = ('src', 'specs', 'proofs')


class Crate:
    """A crate as the kit knows it: its name, its folder, and the folder of its library once it is proved."""

    def __init__(self, known):
        self.known, self.name, self.folder, self.library = known, known.name, known.folder, known.rlib

    @functools.cached_property
    def below(self):
        """The crates of this repository that it rests on, each behind those that it uses itself."""
        return [Crate(it) for it in self.known.below()]

    @functools.cached_property
    def lines(self):
        """How many lines of code it has."""
        return self.known.count(rb'\n')

    @functools.cached_property
    def texts(self):
        """The files that a check of it reads."""
        return list(rtlib.files_of(self.folder))

    @functools.cached_property
    def stamp(self):
        """The sum of all that its library is made from: the kit, its texts and those of the crates below it."""
        return self.known.stamp()

    def prove(self):
        """Proves it, and answers what was said where it couldn't be."""
        done = subprocess.run(['rt', 'lib'], cwd=self.folder, stdout=subprocess.PIPE, stderr=subprocess.STDOUT, text=True)
        return done.stdout if done.returncode else None

    def check(self, words, folder):
        """What the checker says of a copy of this crate in a folder, where proofs may have holes."""
        check = [*rtlib.guarded(), rtlib.RATTLE, 'check', *self.known.words(['--jobs', '1'], keeps=False), '--allow-holes', *words]
        return subprocess.run(check, cwd=folder, stdin=subprocess.DEVNULL, stdout=subprocess.PIPE, stderr=subprocess.STDOUT,
                              text=True, errors='replace').stdout


def crates_below(top):
    """Each crate at or below a folder, lowest first."""
    # The files below a crate are read once, and not once for each way that leads to it.
    rtlib.Crate.stamp = functools.cache(rtlib.Crate.stamp)
    return [Crate(it) for it in rtlib.crates_below(top)]


def end_with_this():
    """Has each check that is begun later end when this process does, however it ends. The main thread calls it, and first."""
    rtlib.guarded()
