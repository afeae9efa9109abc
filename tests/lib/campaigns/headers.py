"""Clients of proxies that tell of their clients in all ways, well and badly, counted by themselves: what the program tells is compared, and
each told address has as many connections as they hold."""
import collections
import contextlib
import re
import socket
import threading
import time

from lib.campaigns.parts import Draw, Report
from lib.headers import LOCAL, MAKERS, SIGNATURE, binary, value
from lib.operations.headed import TABLE, as_key, begins, counts, how_ends, is_reset_unread
from lib.operations.watched import Watched
from lib.proxy import PATIENCE, TRACK, Server, end_of, greets, is_greeted, read_all, reject_above, reset, wait_for

# How many threads of clients there are, how many connections of an address are admitted, and how long a header may take, in ms: on a
# busy machine those who send it in parts have stood still for two seconds.
AT_ONCE, LIMIT, IN_TIME = 12, 2, 5_000

# How many clients more there may be than are asked for: those that are late, and those that are looked at.
SPARE = 1_000
# How many steps each thread makes between two looks, and how many connections it holds at most.
STEPS, HELD = 10, 4
# The proxies, one that is none, and what they tell: fewer connections of them are admitted than all threads would hold.
PROXIES, NONE = [f'127.0.1.{number}' for number in range(1, 4)], '127.0.2.1'
TOLD = [(f'203.0.113.{number}', '192.0.2.1') for number in range(1, 8)] + [(f'2001:db8::{number:x}', '2001:db8:1::1') for number in range(1, 8)]
WORDS = ('--accept-proxy', '127.0.1.0/24', '--proxies-only', '--timeout-header', f'{IN_TIME}ms', '--report', '1h')
# Bytes that begin a header and are wrong at their end.
SPOILT = [SIGNATURE + b'\x23', SIGNATURE + b'\x21\x1f', b'PROXY TCP4 203.0.113.1 192.0.2.1 1\r\n', b'PROXY  ' + b'x' * 100, b'PROXY TCP5 a b 1 2\r\n']
# A line that may be drawn out for longer than it has time.
LONG = b'PROXY UNKNOWN ' + b'x' * 91


class Book:
    """The connections that clients know to be admitted and open, by what they are counted as."""

    def __init__(self):
        self.lock, self.open, self.most = threading.Lock(), collections.defaultdict(set), 0

    def add(self, key, client):
        with self.lock:
            self.open[key].add(client)
            self.most = max(self.most, len(self.open[key]))

    def take(self, key, client):
        with self.lock:
            self.open[key].remove(client)

    def now(self):
        """Those that are open, of each key that has some."""
        with self.lock:
            return {key: set(clients) for key, clients in self.open.items() if clients}


def drawn_header(draw, source):
    """A whole header of either version, and the key that its client has: what it tells or, where it tells none, the proxy's."""
    if draw.chance(8):
        silent = [b'PROXY UNKNOWN\r\n', LONG + b'\r\n', binary('203.0.113.1', command=LOCAL), SIGNATURE + b'\x21\0\0\0']
        return draw.choice(silent), as_key(source)
    told, ports = draw.choice(TOLD), (draw.randrange(65_536), draw.randrange(65_536))
    if draw.chance(2):
        return MAKERS[0](*told, ports), as_key(told[0])
    more = b''.join(value(draw.randrange(256), draw.randbytes(draw.randrange(200))) for _ in range(draw.randrange(4)))
    return binary(*told, ports, more), as_key(told[0])


def in_parts(proxy, draw, sent, source):
    """A client that sends this in up to four parts, with short pauses. Some of it is in the last one, as it may be reset for the whole."""
    cuts = sorted(draw.randrange(len(sent)) for _ in range(draw.randrange(4) if sent else 0))
    client = begins(proxy, sent[:cuts[0]] if cuts else sent, source)
    for start, end in zip(cuts, [*cuts[1:], len(sent)]):
        time.sleep(draw.random() * 0.02)
        client.sendall(sent[start:end])
    return client


class Visitor(threading.Thread):
    """A thread whose clients come and go by what is drawn. It meets the others after so many steps, twice: in between all stand still."""

    def __init__(self, proxy, draw, book, meeting, rounds):
        super().__init__()
        self.proxy, self.draw, self.book, self.meeting, self.rounds = proxy, draw, book, meeting, rounds
        self.mine, self.held, self.faults = collections.Counter(), [], []

    def run(self):
        try:
            for _ in range(self.rounds):
                for _ in range(STEPS):
                    self.draw.choices([self.tells, self.leaves, self.spoils, self.ends_early, self.is_none], self.weights())[0]()
                for _ in range(2):
                    self.meeting.wait(3 * PATIENCE)
        except (AssertionError, OSError, threading.BrokenBarrierError) as fault:
            self.faults.append(repr(fault))
            self.meeting.abort()

    def weights(self):
        """How often each step is drawn. Who holds nothing leaves none, and who holds much tells of none."""
        return [30 * (len(self.held) < HELD), 20 * bool(self.held), 8, 8, 4]

    def tells(self):
        """A client with a whole header, which is served or is one too many of its address."""
        source = self.draw.choice(PROXIES)
        header, key = drawn_header(self.draw, source)
        client = in_parts(self.proxy, self.draw, header, source)
        self.mine['accepted'] += 1
        self.mine['headers'] += 1
        if is_greeted(client):
            self.mine['admitted'] += 1
            self.book.add(key, client)
            self.held.append((key, client))
        else:
            self.mine['rejected'] += 1
            client.close()

    def leaves(self):
        """One that was served ends, in order or not."""
        key, client = self.held.pop(self.draw.randrange(len(self.held)))
        self.book.take(key, client)
        end = self.draw.choice([reset, socket.socket.close, lambda client: (client.shutdown(socket.SHUT_WR), read_all(client), client.close())])
        end(client)

    def fails(self, cause, client=None):
        """Counts a client that was reset for this; one that is told has to hear of it."""
        self.mine.update(['accepted', 'rejected', cause])
        if client is not None:
            with client:
                ending = end_of(client) if cause == 'ended' else how_ends(client)
                if ending != 'reset':
                    self.faults.append(f'{cause}: it ends {ending}')

    def spoils(self):
        """A client that begins by no header, or by one that goes wrong."""
        garbage = bytes([self.draw.choice([byte for byte in range(256) if byte not in b'P\r'])]) + self.draw.randbytes(self.draw.randrange(300))
        sent = self.draw.choice([garbage, *SPOILT])
        client = begins(self.proxy, sent[:-1] if sent is not garbage else b'', self.draw.choice(PROXIES))
        time.sleep(self.draw.random() * 0.01)
        client.sendall(sent[-1:] if sent is not garbage else sent)
        self.fails('wrong', client)

    def ends_early(self):
        """A client that ends before its header is whole: by a close, a reset, or in order."""
        header, _ = drawn_header(self.draw, PROXIES[0])
        client = in_parts(self.proxy, self.draw, header[:self.draw.randrange(len(header))], self.draw.choice(PROXIES))
        if self.draw.chance(3):
            client.shutdown(socket.SHUT_WR)
            self.fails('ended', client)
        else:
            self.draw.choice([reset, socket.socket.close])(client)
            self.fails('ended')

    def is_none(self):
        """A client that is no proxy, whatever it sends."""
        header, _ = drawn_header(self.draw, NONE)
        if not is_reset_unread(self.proxy, self.draw.choice([header, b'GET / HTTP/1.0\r\n\r\n', b'']), NONE):
            self.faults.append('untrusted: no reset')
        self.fails('untrusted')


class Dawdler(threading.Thread):
    """A thread whose clients are late: their headers stop somewhere, or drip in for longer than they have time."""

    def __init__(self, proxy, draw, ends):
        super().__init__()
        self.proxy, self.draw, self.ends = proxy, draw, ends
        self.mine, self.faults = collections.Counter(), []

    def run(self):
        try:
            while not self.ends.is_set():
                began = time.monotonic()
                self.draw.choice([self.stops, self.drips])()
                self.mine.update(['accepted', 'rejected', 'late'])
                if time.monotonic() - began < 0.95 * IN_TIME / 1000:
                    self.faults.append(f'late after {time.monotonic() - began:.2f} s')
        except OSError as fault:
            self.faults.append(repr(fault))

    def stops(self):
        header = self.draw.choice([LONG, binary(*TOLD[0])])
        with begins(self.proxy, header[:self.draw.randrange(len(header))], self.draw.choice(PROXIES)) as client:
            if how_ends(client) != 'reset':
                self.faults.append('late: no reset')

    def drips(self):
        with begins(self.proxy, b'', self.draw.choice(PROXIES)) as client, contextlib.suppress(ConnectionError):
            for at in range(len(LONG)):
                client.send(LONG[at:at + 1])
                time.sleep(0.1)
            self.faults.append('late: it dripped in all the same')


def connections_of(proxy):
    """How many connections each key has, of those that have some."""
    return {as_key(key): row['conn_cur'] for key, row in proxy.rows().items() if row['conn_cur']}


class Looker(threading.Thread):
    """Looks again and again: no key has fewer connections than were open all the while, nor more than may be judged beside those that are
    admitted; and none is there but those that are told, and the proxies."""

    def __init__(self, proxy, book, report):
        super().__init__()
        self.proxy, self.book, self.report, self.ends = proxy, book, report, threading.Event()
        self.known = set(map(as_key, [*PROXIES, *(source for source, _ in TOLD)]))

    def run(self):
        try:
            self.look_on()
        except OSError as fault:
            self.report.check(False, f'looking ended by {fault!r}')

    def look_on(self):
        while not self.ends.wait(0.03):
            before, seen, after = self.book.now(), connections_of(self.proxy), self.book.now()
            short = {str(key) for key in before if len(before[key] & after.get(key, set())) > seen.get(key, 0)}
            much = {str(key): number for key, number in seen.items() if number > LIMIT + AT_ONCE}
            self.report.check(not short and not much and set(seen) <= self.known, f'too few: {short}, too many: {much}, of {seen}')

    def stop(self):
        self.ends.set()
        self.join()


def all_stand_still(proxy, book, draw, report, mine):
    """Between two rounds each key has as many connections as are held, and never more than the limit. One more is admitted just where there
    are fewer."""
    held = {key: len(clients) for key, clients in book.now().items()}
    try:
        wait_for('connections are those held', lambda: connections_of(proxy) == held)
    except AssertionError:
        report.check(False, f'{connections_of(proxy)}, and {held} are held')
        return
    report.check(max(held.values(), default=0) <= LIMIT, f'{held} are held')
    told = draw.choice(TOLD)
    with begins(proxy, draw.choice(MAKERS)(*told), PROXIES[0]) as client:
        is_admitted = is_greeted(client)
    report.check(is_admitted == (held.get(as_key(told[0]), 0) < LIMIT), f'one more of {told[0]}: {is_admitted}, and {held} are held')
    mine.update(['accepted', 'headers', 'admitted' if is_admitted else 'rejected'])
    wait_for('it is gone', lambda: connections_of(proxy) == held)


def rounds_of(proxy, given, report):
    """Makes the rounds, and answers what the clients came to."""
    rounds = max(1, given.count // (AT_ONCE * STEPS))
    book, meeting, mine = Book(), threading.Barrier(AT_ONCE + 1), collections.Counter()
    visitors = [Visitor(proxy, Draw('headers', given.seed, lane), book, meeting, rounds) for lane in range(AT_ONCE)]
    looker, ends = Looker(proxy, book, report), threading.Event()
    dawdlers = [Dawdler(proxy, Draw('headers', given.seed, 'late', lane), ends) for lane in range(4)]
    for thread in (*visitors, *dawdlers, looker):
        thread.start()
    try:
        draw = Draw('headers', given.seed, 'still')
        for _ in range(rounds):
            meeting.wait(3 * PATIENCE)
            all_stand_still(proxy, book, draw, report, mine)
            meeting.wait(3 * PATIENCE)
    except (threading.BrokenBarrierError, AssertionError) as fault:
        report.check(False, f'a round ended by {fault!r}')
        meeting.abort()
    finally:
        ends.set()
        looker.stop()
        for thread in (*visitors, *dawdlers):
            thread.join()
            report.faults += thread.faults
            mine += thread.mine
        for visitor in visitors:
            for _, client in visitor.held:
                client.close()
    report.check(book.most == LIMIT, f'{book.most} of one address were open at most')
    return mine


def headers(given):
    """Clients of three proxies that tell of fourteen clients, by both versions, in parts, with values beside; others send garbage, end too
    early, or are late, or come from elsewhere. Each told address has at every look the connections that are held of it, and two at most. At
    the end all counts are those of the clients, by their causes, and no reference is out."""
    report = Report()
    last = given.count + SPARE
    rules = [TABLE, TRACK, reject_above(LIMIT)]
    with Server(greets) as server, Watched(server.port, rules, *WORDS, '--stop-after', str(last), threads=4) as proxy:
        mine = rounds_of(proxy, given, report)
        # No client sent more than its header.
        wanted = {name: mine[name] for name in counts(proxy)}
        with contextlib.suppress(AssertionError):
            wait_for('all have gone', lambda: counts(proxy) == wanted and proxy.is_unused())
        report.check(counts(proxy) == wanted, f'told {counts(proxy)}, and there were {dict(mine)}')
        report.check(proxy.is_unused(), f'{proxy.rows()}')
        # The program settles with its last client: these end before they have begun.
        for _ in range(last - mine['accepted']):
            begins(proxy, b'', PROXIES[0]).close()
        status, written, said = proxy.ended()
        settled = re.fullmatch(r'settled www: \d+ calls, 0 references\n', written)
        report.check(status == 0 and settled is not None, f'{(status, written, said)}')
    report.tried += mine['accepted']
    report.tell(f'{mine["accepted"]:,} connections: {dict(mine)}')
    return report
