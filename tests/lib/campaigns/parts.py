"""What the campaigns of hostile use share: what they are given, what they report, and how words are drawn."""
import collections
import os
import random
import subprocess
import time

# The seconds after which a run that should have ended has failed.
PATIENCE = 60

# The seed of what is drawn, and how much is tried.
Given = collections.namedtuple('Given', 'seed count')


class Report:
    """How often a campaign tried something, what was wrong, and what it measured."""

    def __init__(self):
        self.tried, self.faults, self.told = 0, [], []

    def check(self, holds, fault):
        """Counts a trial; what was wrong is told where it doesn't hold."""
        self.tried += 1
        if not holds:
            self.faults.append(fault)

    def tell(self, text):
        """Notes what was measured."""
        self.told.append(text)

    def add(self, other):
        """Adds what another reports."""
        self.tried += other.tried
        self.faults += other.faults
        self.told += other.told


class Draw(random.Random):
    """Draws by a seed: each part of a campaign by one of its own, so that it can be made again alone."""

    def __init__(self, *parts):
        super().__init__(' '.join(map(str, parts)))

    def chance(self, of):
        """Holds once in so many times."""
        return self.randrange(of) == 0

    def number(self, least, most):
        """A decimal, often at an end of its range, sometimes with zeros in front."""
        value = self.choice([least, most, self.randint(least, most), self.randint(least, min(most, least + 20))])
        return '0' * self.choice([0, 0, 0, 1, 4]) + str(value)


def run(words, stdin=b'', patience=PATIENCE, **more):
    """A run of a program: its status, output and errors as bytes, and how many seconds it took. A run that doesn't end has
    the status None."""
    began = time.monotonic()
    try:
        done = subprocess.run(words, input=stdin, stdout=subprocess.PIPE, stderr=subprocess.PIPE, timeout=patience, check=False, **more)
    except subprocess.TimeoutExpired as late:
        return Ran(None, late.stdout or b'', late.stderr or b'', time.monotonic() - began)
    return Ran(done.returncode, done.stdout, done.stderr, time.monotonic() - began)


Ran = collections.namedtuple('Ran', 'status stdout stderr seconds')


def write_file(folder, name, content):
    """A file of a folder, with this content; its path."""
    path = os.path.join(folder, name)
    with open(path, 'wb') as file:
        file.write(content if isinstance(content, bytes) else content.encode())
    return path


def sole_line(ran, *texts):
    """Whether a run failed, and said so on one line of standard error that begins with one of these texts."""
    lines = ran.stderr.decode('utf-8', 'replace').splitlines()
    return ran.status == 1 and len(lines) == 1 and lines[0].startswith(texts)
