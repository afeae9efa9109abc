"""Reloads among random connections: each verdict is compared with that of a replay by the version that judges, on the table as it is then.
And reloads of which single allocations are refused."""
import collections
import re
import tempfile

from lib.campaigns.memory import UNMET
from lib.campaigns.parts import Draw, Report, run, write_file
from lib.operations.reload_base import OFTEN, REJECT, Reloaded
from lib.places import stickd
from lib.proxy import TRACK, Server, arrive, configuration, greets, is_greeted, reject_above, wait_for
from lib.shims import Refusals, build_shim

DATA = 'conn_cur,conn_cnt,sess_cnt,gpc0,gpc1,gpt0'
TABLES = {'www': f'stick-table type ip size 1k store {DATA}', 'other': f'stick-table type ip size 1k store {DATA}'}
OTHER = f'backend other\n    {TABLES["other"]}\n'
SOURCES = [f'127.0.0.{number}' for number in range(1, 7)]
# What rules ask of an entry, and below what they compare it.
ASKED = [('conn_cur', 4), ('conn_cnt', 40), ('get_gpc0', 6), ('get_gpc1', 6), ('get_gpt0', 3), ('sess_cnt', 30), ('trackers', 4)]
# How many connections come and go by one version, and how many are open at most.
STEPS, HELD = 12, 8
# By which a replay holds the connections that are open already: the port tells in which tables they are tracked. Real clients have others.
BOTH, PLACES = 3, {('www',): 1, ('other',): 2, ('www', 'other'): 3, (): 4}
HOLDS = [f'tcp-request connection track-sc0 src if {{ src_port {PLACES["www",]} {BOTH} }}',
         f'tcp-request connection track-sc0 src table other if {{ src_port {PLACES["other",]} }}',
         f'tcp-request connection track-sc1 src table other if {{ src_port {BOTH} }}',
         'tcp-request connection accept if { src_port 1:4 }']
# What the program may say of a reload for which there is no memory.
SHORT = re.compile(r"Not reloaded: (?:out of memory\.|line \d+: C12 out of memory|\S+ can't be read: .*)|Out of memory\.")

# A version: its rules, and the tables in which they track whom they admit.
Version = collections.namedtuple('Version', 'rules tracks')


def condition(draw, slots):
    """A condition that asks about the client, and about what is tracked by these slots."""
    asked = [f'src {draw.choice(SOURCES)}', f'src 127.0.0.{draw.choice([0, 2, 4])}/31', f'dst_port gt {draw.choice([1, 65_535])}']
    for slot in slots * 3:
        fetch, most = draw.choice(ASKED)
        asked.append(f'sc{slot}_{fetch} {draw.choice(["gt", "ge", "lt", "eq"])} {draw.randrange(most)}')
    words = draw.sample(asked, draw.randint(1, 2))
    return draw.choice(['if', 'if', 'unless']) + ''.join(f' {draw.choice(["", "", "!"])}{{ {words} }}' for words in words)


def drawn_version(draw):
    """Rules that track clients in a table, or in both, or in none, then count and ask, and accept some and reject others."""
    tracks = draw.choice([('www',), ('www',), ('other',), ('www', 'other'), ()])
    slots = list(range(len(tracks)))
    rules = [f'tcp-request connection track-sc{slot} src table {table}' for slot, table in zip(slots, tracks)]
    for _ in range(draw.randrange(5)):
        counts = [draw.choice([f'sc-inc-gpc{draw.randrange(2)}({slot})', f'sc-set-gpt0({slot}) {draw.randrange(4)}']) for slot in slots]
        action = draw.choice(['accept', 'reject', 'reject', *counts])
        rules.append(f'tcp-request connection {action} {condition(draw, slots)}')
    return Version(rules, tracks)


def shown_rows(text):
    """The entries that a listing shows, of each table by their keys, without the times that they have left."""
    tables, rows = {}, None
    for line in text.splitlines():
        if line.startswith('# table: '):
            rows = tables.setdefault(line.split()[2].rstrip(','), {})
        elif line.startswith('0x0: '):
            datum = dict(re.findall(r'(\w+)=(\S+)', line))
            datum.pop('exp')
            rows[datum.pop('key')] = datum
    return tables


def listing(proxy):
    """What both tables show."""
    return shown_rows(proxy.command('show table www\nshow table other\n'))


class Era:
    """What is done while one version judges, and its replay: a script, and what was seen of each of its lines."""

    def __init__(self, proxy, version, held):
        self.proxy, self.version = proxy, version
        self.script, self.seen = [], []
        for number, (source, tracks, _) in held.items():
            self.script.append(f'0 open {number} {source} {PLACES[tracks]}')
            self.seen.append(f'open {number} accept')
        for table, rows in listing(proxy).items():
            self.script += [f'0 cmd set table {table} key {key} {data_of(row)}' for key, row in rows.items()]
            self.seen += [''] * len(rows)

    def opens(self, number, source):
        """A client comes: it, where it is greeted."""
        client = arrive(self.proxy, source)
        greeted = is_greeted(client)
        # One that is reset at once has no port to tell, and rules ask for none but small ones.
        port = client.getsockname()[1] if greeted else 40_000
        self.script.append(f'0 open {number} {source} {port}')
        self.seen.append(f'open {number} {"accept" if greeted else "reject"}')
        return client if greeted else None

    def closes(self, number, client):
        """One that was greeted ends."""
        client.close()
        self.script.append(f'0 close {number} 0 1')
        self.seen.append(f'close {number}')

    def replayed(self, room):
        """What a replay by this version answers: its lines, and what its tables show at the end."""
        text = configuration(f'bind 127.0.0.1:{self.proxy.port}', TABLES['www'], *HOLDS, *self.version.rules, 'server one 127.0.0.1:1',
                             others=OTHER)
        shows = ['0 cmd show table www', '0 cmd show table other']
        ran = run([stickd(), 'replay', write_file(room, 'version.cfg', text)], '\n'.join([*self.script, *shows, '']).encode())
        assert ran.status == 0, ran
        lines = ran.stdout.decode().split('\n')
        return lines[:len(self.seen)], shown_rows('\n'.join(lines[len(self.seen):]))


def data_of(row):
    """The words that set what an entry shows, but for what is counted by the connections that are open."""
    return ' '.join(f'data.{name} {value}' for name, value in row.items() if name not in ('use', 'conn_cur'))


class Course:
    """The connections of a campaign: those that are open, each with its address, the tables in which it is tracked, and its client."""

    def __init__(self, proxy, draw):
        self.proxy, self.draw, self.held, self.number, self.accepted, self.rejected = proxy, draw, {}, 0, 0, 0

    def step(self, era):
        """One comes, or one goes. What the table shows is waited for, as the next verdict may ask for it."""
        if self.held and (len(self.held) >= HELD or self.draw.chance(3)):
            number = self.draw.choice(list(self.held))
            era.closes(number, self.held.pop(number)[2])
        else:
            self.number += 1
            source = self.draw.choice(SOURCES)
            client = era.opens(self.number, source)
            self.accepted += client is not None
            self.rejected += client is None
            if client is not None:
                self.held[self.number] = (source, era.version.tracks, client)
        wait_for('what is open is tracked', self.is_tracked)

    def is_tracked(self):
        """Whether each entry has as many references as connections are open that are tracked there."""
        wanted = collections.Counter((table, source) for source, tracks, _ in self.held.values() for table in tracks)
        shown = {(table, key): int(row['use']) for table, rows in listing(self.proxy).items() for key, row in rows.items()}
        return {entry: uses for entry, uses in shown.items() if uses} == wanted

    def ends(self):
        for _, _, client in self.held.values():
            client.close()
        self.held = {}


def by_versions(given, number, report):
    """Connections that come and go in one program while versions follow each other, as many as it can be reloaded to at most."""
    draw = Draw('reloads', given.seed, number)
    with tempfile.TemporaryDirectory(prefix='stickd-') as room, Server(greets) as server:
        version = drawn_version(draw)
        with Reloaded(server.port, version.rules, tables=[TABLES['www']], others=OTHER, threads=4) as proxy:
            course = Course(proxy, draw)
            for reloads in range(min(OFTEN, given.count)):
                era = Era(proxy, version, course.held)
                for _ in range(STEPS):
                    course.step(era)
                shown = listing(proxy)
                lines, tables = era.replayed(room)
                report.check(lines == era.seen, f'version {reloads + 1}, {version.rules}: {differences(era, lines)}')
                report.check(shown == tables, f'version {reloads + 1}, {version.rules}: it shows {shown}, and its replay {tables}')
                version = drawn_version(draw)
                report.check(proxy.takes(rules=version.rules) == reloads + 2, 'the version is another')
            course.ends()
            proxy.settles()
            told = sum('reloaded: version ' in line for line in proxy.said())
            report.check(told == min(OFTEN, given.count), f'{told} reloads are told')
    report.tell(f'{course.accepted} accepted, {course.rejected} rejected')
    report.check(min(course.accepted, course.rejected) * 10 >= course.number, f'{course.accepted} and {course.rejected} of {course.number}')


def differences(era, lines):
    """The first line of a script that was answered otherwise."""
    for asked, seen, answered in zip(era.script, era.seen, lines):
        if seen != answered:
            return f'{asked!r}: {seen!r}, and its replay {answered!r}'
    return f'{len(era.seen)} lines, and its replay {len(lines)}'


def reloads(given):
    """Versions of random rules over two tables follow each other, while clients of six addresses come and go. Each verdict, and what the
    tables show at the end of each, is that of a replay by the version that judges, beside the connections that are open. At the
    end no reference is out."""
    report = Report()
    by_versions(given, 0, report)
    return report


def reloads_refused(given):
    """A reload, each allocation refused in turn: it is done, or it is told that memory is short and the old rules go on, and then one
    with memory is done."""
    report, met = Report(), 0
    with tempfile.TemporaryDirectory(prefix='stickd-') as room, Server(greets) as server:
        refusals = Refusals(room)
        environment = refusals.environment(build_shim(room))
        with Reloaded(server.port, [TRACK], threads=1, environment=environment) as proxy:
            number = unmet = 0
            version = proxy.takes(rules=[TRACK, reject_above(2)])
            while unmet < UNMET and number < OFTEN // 3:
                number += 1
                proxy.write(proxy.text(rules=[TRACK, REJECT]))
                refusals.refuse(number)
                answer = proxy.asks()
                was_met = refusals.were_met()
                unmet, met = 0 if was_met else unmet + 1, met + was_met
                is_done = answer.startswith('Reloaded: ')
                report.check(is_done or was_met and SHORT.fullmatch(answer) is not None, f'allocation {number} refused: {answer!r}')
                version += is_done
                client = arrive(proxy)
                report.check(is_greeted(client) != is_done, f'allocation {number} refused: {answer!r}, and other rules judge')
                report.check(proxy.counts_of_reloads()[0] == version, f'allocation {number} refused: version {proxy.counts_of_reloads()}')
                if client is not None:
                    client.close()
                wait_for('it is gone', proxy.is_unused)
                version += 1
                report.check(proxy.takes(rules=[TRACK, reject_above(2)]) == version, 'the version is another')
    report.check(met > 0, 'no allocation was met')
    report.tell(f'{met} allocations refused')
    return report
