"""Libraries that stand before the system's own in a program: they refuse it what it asks for, or count it. Their sources are in c/."""
import mmap
import os
import struct
import subprocess
import tempfile

from lib.places import TOP


def build_shim(workplace, name='refuse_allocation'):
    """Builds one of them, as a rule the one that refuses allocations, and answers where it is."""
    shim = os.path.join(workplace, name + '.so')
    source = os.path.join(TOP, 'tests', 'lib', 'c', name + '.c')
    subprocess.run(['cc', '-O2', '-shared', '-fPIC', '-o', shim, source], check=True)
    return shim


class Ran(tuple):
    """The status, output and errors of a run. Beside them, and not compared, stands how many allocations it asked for: none where
    the library that counts them wasn't there."""

    def __new__(cls, status, output, errors, allocations):
        ran = super().__new__(cls, (status, output, errors))
        ran.allocations = allocations
        return ran


def run_words(words, shim, refused, text=''):
    """A run of a program with this allocation refused (0: none), its input being this text, a byte a character."""
    with tempfile.NamedTemporaryFile(dir=os.path.dirname(shim)) as counted:
        done = subprocess.run(words, input=text.encode('latin-1'), stdout=subprocess.PIPE, stderr=subprocess.PIPE, check=False,
                              env={'LD_PRELOAD': shim, 'REFUSED_ALLOCATION': str(refused), 'COUNTED_ALLOCATIONS': counted.name})
        count = counted.read()
    return Ran(done.returncode, done.stdout.decode('latin-1'), done.stderr.decode('latin-1'), int(count) if count else None)


class Refusals:
    """Says which allocations of a running program are refused."""

    def __init__(self, workplace):
        self.path = os.path.join(workplace, 'refusals')
        with open(self.path, 'wb') as file:
            file.write(bytes(16))
        with open(self.path, 'r+b') as file:
            self.shared = mmap.mmap(file.fileno(), 16)

    def environment(self, shim):
        """What the program has to find around it."""
        return {**os.environ, 'LD_PRELOAD': shim, 'REFUSAL_CONTROL': self.path}

    def refuse(self, number):
        """The allocation of this number from now on fails; 0: none."""
        self.shared[:8] = struct.pack('q', number)

    def refuse_all(self, all_of_them):
        """All fail from now on, or none."""
        self.shared[8:] = struct.pack('q', all_of_them)

    def were_met(self):
        """Whether that allocation was there. From now on none fails."""
        left = struct.unpack('q', self.shared[:8])[0]
        self.refuse(0)
        return left == 0
