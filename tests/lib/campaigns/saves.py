"""Random tables of a running proxy, saved over its stats socket and loaded by another program: behind that the same entries go."""
import os
import re
import tempfile
import time

from lib.calls import calls_of_clients
from lib.campaigns.parts import PATIENCE, Draw, Report, run, write_file
from lib.operations.watched import Watched
from lib.places import stickd
from lib.proxy import Server, greets

# How many tables a running proxy has at once, and the sizes that are drawn.
AT_ONCE = 50
SIZES = [3, 4, 5, 8, 13]
# How many new keys are put into each table, one behind the other. Its rows are compared behind each.
NEW = 5
# The ms of the longest expire: no entry's time is over before the campaign is.
LIFE = 3_600_000
KEYS = {'integer': '{}', 'ip': '10.0.0.{}', 'string len 8': 'key{}'}
UNKNOWN = b'# not known: '


class Table:
    """A random table: with expire or none, what fills it, and what it is asked behind that."""

    def __init__(self, draw, name):
        self.name, self.kind, self.size = name, draw.choice(list(KEYS)), draw.choice(SIZES)
        self.words = draw.choice(['', f' expire {LIFE}', f' expire {LIFE // 2}']) + (' nopurge' if draw.chance(6) else '')
        self.filling = [self.put(draw.randrange(2 * self.size), draw.randrange(9)) for _ in range(draw.randrange(5 * self.size))]
        show = f'show table {name}'
        self.asked = [show, *(word for number in range(NEW) for word in (self.put(100 + number, number), show))]

    def calls(self, shards):
        """How many calls it has had once it was filled, asked and saved: over the stats socket twice, which asks how many entries it has;
        over the command socket once, which lists it too; and `stickd stop` asks as well. A listing asks each shard."""
        listings = sum(command.startswith('show ') for command in self.asked) + 5
        return len(self.filling) + NEW + listings * shards

    def section(self):
        return f'backend {self.name}\n    stick-table type {self.kind} size {self.size}{self.words} store gpc0\n'

    def put(self, number, value):
        """The command that makes the entry of a key, or refreshes it."""
        return f'set table {self.name} key {KEYS[self.kind].format(number)} data.gpc0 {value}'


def mixed(draw, tables):
    """What fills the tables, each one's commands in their order between those of the others."""
    left = {table.name: iter(table.filling) for table in tables}
    names = [table.name for table in tables for _ in table.filling]
    draw.shuffle(names)
    return [next(left[name]) for name in names]


def without_times(text):
    """What is shown, without the times that entries have left."""
    return re.sub(r' exp=\d+', '', text)


def entries_in(saved):
    """The lines of a saved file without the times that their entries have left, those of each table by themselves."""
    entries = {}
    for line in saved.decode().splitlines():
        if not line.startswith('#'):
            _, command = line.split(' cmd ', 1)
            entries.setdefault(command.split()[2], []).append(command)
    return entries


def saved_over(socket):
    """What `stickd ctl save` writes."""
    ran = run([stickd(), 'ctl', '--socket', socket, 'save'])
    assert (ran.status, ran.stderr) == (0, b''), ran
    return ran.stdout


def loaded(room, saved, tables, kept):
    """What the tables are answered that are loaded from what was saved. All is done at the moment from which the tables go on."""
    conf = write_file(room, 'tables.cfg', ''.join(table.section() for table in tables))
    path = os.path.join(room, 'tables.saved')
    with open(path, 'wb') as file:
        file.write(saved)
    script = ''.join(f'0 cmd {command}\n' for table in tables for command in table.asked)
    ran = run([stickd(), 'replay', conf, '--load', path, *kept], script.encode())
    assert (ran.status, ran.stderr) == (0, b''), ran
    return ran.stdout.decode()


def check_round(report, draw, count):
    """So many tables in one program: filled, saved over either socket, loaded by another, and filled further in both; and saved once
    more, over the stats socket and at the program's end."""
    tables = [Table(draw, f't{number}') for number in range(count)]
    kept = ['--shards', str(draw.choice([1, 1, 3])), '--purge', str(draw.choice([1, 2, 8]))]
    filling, asked = mixed(draw, tables), [command for table in tables for command in table.asked]
    with tempfile.TemporaryDirectory(prefix='stickd-') as room, Server(greets) as server:
        path = os.path.join(room, 'at-the-end')
        with Watched(server.port, [], *kept, '--save', path, threads=1, others=''.join(table.section() for table in tables)) as proxy:
            proxy.command('\n'.join(filling) + '\n')
            saved, by_keys = saved_over(proxy.stats), saved_over(proxy.path)
            goes_on = proxy.command('\n'.join(asked) + '\n')
            later = saved_over(proxy.stats)
            stopped = run([stickd(), 'stop', '--stats-socket', proxy.stats], patience=PATIENCE)
            assert stopped.status == 0, stopped
            _, written, said = proxy.ended()
            calls = calls_of_clients(written, said, time.monotonic() - proxy.began, int(kept[1]))
        with open(path, 'rb') as file:
            at_the_end = file.read()
        again = loaded(room, saved, tables, kept)
    report.check(UNKNOWN not in saved and UNKNOWN in by_keys and UNKNOWN not in at_the_end, 'the head of a file is another')
    compare(report, tables, goes_on, again)
    made = {table.name: table.calls(int(kept[1])) for table in tables}
    report.check(calls == made, f'{calls} calls, not {made}')
    report.check(entries_in(later) == entries_in(at_the_end), f'{entries_in(later)} and {entries_in(at_the_end)}')


def compare(report, tables, goes_on, again):
    """Checks that each table shows the same entries in both programs, before new keys are put and behind each."""
    before, behind = (without_times(text).split('# table: ')[1:] for text in (goes_on, again))
    for number, table in enumerate(tables):
        shown = slice(number * (NEW + 1), (number + 1) * (NEW + 1))
        report.check(len(before) == len(behind) and before[shown] == behind[shown],
                     f'{table.section()}{table.filling}: {before[shown]} and {behind[shown]}')


def saves(given):
    """Random tables of a running proxy, with expire or none, in one shard or three, are saved over its stats socket and loaded by
    another program. As new keys are put into both, purging 1, 2 or 8 at once or none, the same entries go. What `run --save` writes
    at the end is what the stats socket told before."""
    report = Report()
    for turn, first in enumerate(range(0, given.count, AT_ONCE)):
        check_round(report, Draw('saves', given.seed, turn), min(AT_ONCE, given.count - first))
    return report
