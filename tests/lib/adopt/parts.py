"""What trials of `stickd adopt` share: runs of the program, and what has to hold of all that it writes."""
import collections
import os
import shlex
import subprocess
import tempfile

from lib.places import TOP

CASES = os.path.join(TOP, 'tests', 'adopt_cases')
# The statuses where what is served is the same, where nothing is made of a file, and where what is served changes.
SAME, FAILED, CHANGED = 0, 1, 3
# The seconds after which a run has failed.
PATIENCE = 60

# The status, the bytes of standard output, and the lines of standard error.
Ran = collections.namedtuple('Ran', 'status text said')


def run(words, folder=None):
    """A run of a program that ends by itself."""
    done = subprocess.run(words, stdin=subprocess.DEVNULL, capture_output=True, timeout=PATIENCE, check=False, cwd=folder)
    return Ran(done.returncode, done.stdout, done.stderr.decode('utf-8', 'replace').splitlines())


def write_file(folder, name, text):
    """A file of a folder; its path."""
    path = os.path.join(folder, name)
    with open(path, 'wb') as file:
        file.write(text)
    return path


def lines_of(text):
    """The lines of a text without what ends them, and with question marks for what is no ASCII."""
    ascii_only = bytes(byte if byte < 128 else ord('?') for byte in text).decode('ascii')
    lines = [line.removesuffix('\r') for line in ascii_only.split('\n')]
    return lines[:-1] if lines[-1] == '' else lines


def fates_of(said):
    """What the report says of each line, by its number."""
    fates = {}
    for line in (line for line in said if line.startswith('stickd: line ')):
        _, number, fate = line.split(': ', 1)[0], *line.removeprefix('stickd: line ').split(': ', 1)
        fates[int(number)] = ''.join(letter if letter < '\x80' else '?' for letter in fate)
    return fates


def line_missing(given, written, fates):
    """The first line of a file that isn't there, in order: as it is, behind the mark of what is left out, or as the report says
    that it was rewritten; or of which nothing is said. None where all of them are there."""
    at = 0
    for number, line in enumerate(given, 1):
        fate = fates.get(number, 'kept')
        if number not in fates and line.split('#')[0].strip(' \t'):
            return f'nothing is said of line {number}, {line!r}'
        new = fate.removeprefix('rewritten: ')
        found = next((place for place in range(at, len(written)) if stands_for(written[place], line, fate, new)), None)
        if found is None:
            return f'line {number}, {line!r}, is missing: {fate}'
        at = found + 1
    return None


def stands_for(written, line, fate, new):
    """Whether a line that was written stands for this one."""
    if fate == 'kept':
        return written == line
    if fate.startswith('rewritten, '):
        return not written.startswith('#')
    return written.startswith('#- ' + line.rstrip()) or (fate.startswith('rewritten: ') and written.strip().startswith(new))


def without_text(ran):
    """A run that wrote no text, and so doesn't say how that is run."""
    end = ran.said.index('stickd: run it by') if 'stickd: run it by' in ran.said else len(ran.said)
    return ran._replace(text=b'', said=ran.said[:end])


class Adopter:
    """The program at PATH."""

    def __init__(self, program):
        self.program = os.path.abspath(program)

    def adopt(self, path, *options):
        return run([self.program, 'adopt', path, '--verbose', *options])

    def check_fault(self, path):
        """What `stickd check` says of a file, apart from that it is valid."""
        done = run([self.program, 'check', path])
        return None if done.status == 0 and not done.said else f'check: status {done.status}, {done.said[:2]}'

    def command_fault(self, command, folder):
        """What is wrong with a command line: `stickd run` has to take all its words. Its configuration is one that isn't there,
        which is seen once they were taken."""
        words = shlex.split(command)
        if words[:3] != ['stickd', 'run', 'stickd.cfg']:
            return f'it is no command line: {command}'
        done = run([self.program, 'run', 'none.cfg', *words[3:]], folder)
        taken = done.status == 1 and done.said and done.said[-1].startswith("stickd: none.cfg can't be read: ")
        return None if taken else f'run: {command}: status {done.status}, {done.said[:2]}'

    def fault_of(self, path, *options):
        """What is wrong with what is made of a file, if anything; and the status. What is written has to hold the lines of the
        file, to be read without a fault and without a warning, to stay as it is where it is adopted again, and to name a command
        line that is taken; and nothing is written where what is served changes, unless that is asked for."""
        done = self.adopt(path, '--anyway', *options)
        if done.status == FAILED and '--frontend' in options and len(done.said) == 1 and 'has no frontend' in done.said[0]:
            return (None if not done.text else f'it has written {done.text}'), FAILED
        if done.status not in (SAME, CHANGED):
            return f'status {done.status}: {done.said[-1:]}', done.status
        if (quiet := self.adopt(path, *options)) != (done if done.status == SAME else without_text(done)):
            return f"what is said isn't as the status says: {quiet}", done.status
        with open(path, 'rb') as file:
            fault = line_missing(lines_of(file.read()), lines_of(done.text), fates_of(done.said))
        with tempfile.TemporaryDirectory() as folder:
            return fault or self.fault_of_text(done.text, self.adopt(path, '--anyway', '--command', *options), folder), done.status

    def fault_of_text(self, text, command, folder):
        """What is wrong with a configuration that was written, and with its command line."""
        copy = write_file(folder, 'adopted.cfg', text)
        again = self.adopt(copy)
        if (again.status, again.text) != (SAME, text):
            return f'adopted again it is another, with status {again.status}'
        if b'# ' + command.text != text[:text.index(b'\n') + 1]:
            return f'the command line is {command.text}'
        return self.check_fault(copy) or self.command_fault(command.text.decode(), folder)
