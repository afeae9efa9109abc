"""What is right for a replay of a script of which one allocation was refused, told by replays of other scripts with none refused.

A command is answered `Out of memory.`, and all behind it is as it is with that command left out; or, where it shows something,
only its text is refused. A connection that is otherwise accepted is rejected, and so may be one that is rejected in any case, before
any of the rules: all behind it is as it is where a rule stands there that rejects it. A count of sessions or bytes is left out.
Before the first line is read it is said that memory is short, and nothing is done."""
import os
import re

from lib.refusals.runs import is_short
from lib.shims import run_words

REFUSED = 'Out of memory.\n\n'
ACCEPTED, REJECTED = ' accept\n', ' reject\n'
BUILT_IN = 'listen t\n    stick-table type ip size 100 store gpc0\n    tcp-request connection track-sc0 src\n'
RULE = re.compile(r'(?m)^(?=[ \t]*tcp-request[ \t]+connection)')
# A port that no connection of a script has.
PORT = '64999'
# The counts that a connection skips where they are refused, and a datum of a row.
SKIPPED = ('sess', 'bytes_in', 'bytes_out')
DATUM = re.compile(r'(\w+?)(_cnt|_rate)(?:\(\d+\))?=(\d+)')


def single(lines):
    """The same lines, with a command each."""
    for line in lines:
        head = re.match(r'\d+ cmd(?= |\n|$)', line)
        if head and ';' in line:
            for command in line[head.end():].rstrip('\n').split(';'):
                yield f'{head[0]} {command}\n'
        else:
            yield line


class Script:
    """A script that is replayed on a configuration (the built-in one without), line by line."""

    def __init__(self, program, shim, room, lines, conf=None, words=()):
        self.program, self.shim, self.room, self.words = program, shim, room, list(words)
        self.conf, self.lines = conf, list(single(lines))
        self.text = ''.join(lines)
        self.outputs = {}

    def run(self, refused):
        """A run with an allocation refused."""
        return run_words(self.command(self.conf), self.shim, refused, self.text)

    def command(self, conf):
        """The words of a replay on a configuration."""
        if conf is None:
            return [self.program, 'replay', *self.words]
        path = os.path.join(self.room, f'{hash(conf)}.cfg')
        if not os.path.exists(path):
            with open(path, 'w', encoding='latin-1', newline='') as file:
                file.write(conf)
        return [self.program, 'replay', path, *self.words]

    def output(self, lines, conf=None):
        """What these lines are answered with nothing refused."""
        key = tuple(lines), conf
        if key not in self.outputs:
            self.outputs[key] = run_words(self.command(conf or self.conf), self.shim, 0, ''.join(lines))[1]
        return self.outputs[key]

    def rejections(self, place):
        """The outputs where the connection of this line is rejected before one of the rules, or behind them all."""
        conf = self.conf or BUILT_IN
        if 'src_port' in conf:
            return [self.output(self.lines[:place]) + self.rejected_at_once(place)]
        lines = self.lines[:place] + [re.sub(r'\S+\s*$', PORT + '\n', self.lines[place])] + self.lines[place + 1:]
        rule = f'    tcp-request connection reject if {{ src_port {PORT} }}\n'
        starts = [match.start() for match in RULE.finditer(conf)]
        ends = [conf.find('\n', starts[-1]) + 1] if starts else []
        return [self.output(lines, conf[:at] + rule + conf[at:]) for at in starts + ends]

    def rejected_at_once(self, place):
        """What is behind this line, where its connection is rejected and nothing is done."""
        number = int(self.lines[place].split()[2])
        left_out = self.lines[:place] + self.lines[place + 1:]
        return f'open {number}{REJECTED}' + self.output(left_out)[len(self.output(self.lines[:place])):]

    def wanted_of(self, place):
        """What is right where an allocation is refused as this line is served."""
        before, here, whole = (self.output(self.lines[:end]) for end in (place, place + 1, len(self.lines)))
        answer, behind = here[len(before):], whole[len(here):]
        words = self.lines[place].split(' ')
        if answer and words[1:2] == ['cmd']:
            left_out = self.output(self.lines[:place] + self.lines[place + 1:])[len(before):]
            return [before + REFUSED + left_out] + ([before + REFUSED + behind] if words[2:3] == ['show'] else [])
        if answer.endswith((ACCEPTED, REJECTED)):
            return [before + self.rejected_at_once(place), *self.rejections(place)]
        return []

    def wanted(self):
        """All that is right."""
        whole = self.output(self.lines)
        return {whole}.union(*(self.wanted_of(place) for place in range(len(self.lines))))


def counts_less(found, wanted):
    """Whether two outputs differ in one count alone, of sessions or bytes of one key, that was left out in one of them."""
    differing = set()
    came_lines, lines = found.split('\n'), wanted.split('\n')
    for came, line in zip(came_lines, lines):
        if DATUM.sub('', came) != DATUM.sub('', line):
            return False
        key = line.partition(' use=')[0]
        for less, more in zip(DATUM.finditer(came), DATUM.finditer(line)):
            if less[0] != more[0]:
                differing.add((key, more[1]) if less[1] == more[1] and int(less[3]) < int(more[3]) else None)
    return len(came_lines) == len(lines) and len(differing) == 1 and None not in differing and differing.pop()[1] in SKIPPED


def is_right_replay(script):
    """A function that says whether a run of a script with an allocation refused is right."""
    outputs = script.wanted()

    def is_right(found, wanted):
        if found[0] != 0 or wanted[0] != 0:
            return is_short(found)
        return found[2] == wanted[2] and (found[1] in outputs or counts_less(found[1], wanted[1]))
    return is_right
