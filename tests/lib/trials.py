"""What the commands of tests/ share: how their words are read, how trials are made, and how they are summed up."""
import argparse
import collections
import enum
import os
import shutil
import subprocess

from lib.places import PROGRAMS


def words_of(doc):
    """A reader of a command's words, with this text for its help."""
    return argparse.ArgumentParser(description=doc, formatter_class=argparse.RawDescriptionHelpFormatter)


def words_with_program(doc):
    """The same of a command that runs the built program."""
    read = words_of(doc)
    read.add_argument('--program', metavar='PATH', type=give_program,
                      help='the program that is run; else the one that `rt ci` or `rt run` leaves in crates/stickd/out')
    return read


def words_of_trials(doc):
    """The same, where trials may be named."""
    read = words_with_program(doc)
    read.add_argument('names', nargs='*', metavar='NAME', help='the trials that are made; all of them without')
    read.add_argument('--once', action='store_true', help='a trial that fails is not made a second time')
    return read


def give_program(path):
    """Has the program at this path run from now on."""
    PROGRAMS['stickd'] = os.path.abspath(path)
    return path


class NotMade(Exception):
    """What a trial wants and isn't on this machine."""


def wants(*tools):
    """Ends a trial that wants a tool which isn't here."""
    lacking = [tool for tool in tools if not shutil.which(tool)]
    if lacking:
        raise NotMade(f"{' and '.join(lacking)} {'is' if len(lacking) == 1 else 'are'} not here (tests/debian-packages)")


class Fate(enum.Enum):
    """How a trial went."""
    PASSED = 'passed'
    LATE = 'passed as it was made a second time'
    WEAK = 'passed, but shows little'
    NOT_MADE = 'was not made'
    FAILED = 'failed'


class Sum:
    """How the trials of a command went. One that passed as it was made a second time may be a busy machine's fault; more than one are
    taken for a fault of the program."""

    def __init__(self, command):
        self.command, self.counts = command, collections.Counter()

    def add(self, passed, failed):
        """Counts trials."""
        self.counts[Fate.PASSED] += passed
        self.counts[Fate.FAILED] += failed

    def count(self, fate):
        """Counts one trial by its fate."""
        self.counts[fate] += 1

    def status(self):
        """Says the sum, and answers the command's status: 1 where a trial failed, where more than one passed at the second try alone,
        and where none was made."""
        passed, late = self.counts[Fate.PASSED] + self.counts[Fate.LATE], self.counts[Fate.LATE]
        failed, weak, not_made = (self.counts[fate] for fate in (Fate.FAILED, Fate.WEAK, Fate.NOT_MADE))
        print(f'{self.command}: {passed} passed' + f', {late} on the second try' * bool(late) + f', {weak} weak' * bool(weak)
              + f', {failed} failed' + f', {not_made} not made' * bool(not_made))
        if late > 1:
            print(f'{self.command}: {late} passed on the second try alone, and one may')
        return 1 if failed or late > 1 or not passed else 0


def fate_of(trial):
    """Makes a trial, and says what failed or what it lacks."""
    try:
        trial()
    except NotMade as lacking:
        print(f'{trial.__name__}: not made: {lacking}', flush=True)
        return Fate.NOT_MADE
    except (AssertionError, OSError, subprocess.TimeoutExpired, KeyError) as fault:
        print(f'{trial.__name__}: {fault!r}'[:2000], flush=True)
        return Fate.FAILED
    return Fate.PASSED


def made_again(name, make, once):
    """The fate of what is made and, where that fails, is made once more: each waits for what a busy machine does late, and what is
    always wrong fails twice. What failed is said either way."""
    fate = make()
    if fate is not Fate.FAILED or once:
        return fate
    if make() is Fate.FAILED:
        return Fate.FAILED
    print(f'{name}: it {Fate.LATE.value}', flush=True)
    return Fate.LATE


def run_trials(command, trials, given):
    """Makes the trials that are named, or all, and answers the status."""
    names, once = given.names, given.once
    unknown = set(names) - {trial.__name__ for trial in trials}
    if unknown:
        print(f'{command}: no trial is named {" or ".join(sorted(unknown))}')
        return 2
    total = Sum(command)
    for trial in trials:
        if not names or trial.__name__ in names:
            total.count(made_again(trial.__name__, lambda: fate_of(trial), once))
    return total.status()
