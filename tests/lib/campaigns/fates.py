"""Clients of all fates, on 64 threads of the program, counted by themselves: what the program tells of them is compared."""
import codecs
import collections
import contextlib
import multiprocessing
import re
import select
import socket
import subprocess
import threading
import time

from lib.calls import ADMITTED, LOOK, REJECTED, calls_of_clients
from lib.campaigns.parts import PATIENCE, Draw, Report
from lib.operations.watched import Watched
from lib.places import stickd
from lib.proxy import TRACK, arrive, free_port, is_greeted, raise_descriptors, read_all, reject_above, reset, wait_for

TABLE = 'stick-table type ip size 200k store conn_cur,conn_cnt'
# How many threads the program has, and from how many processes so many clients come at once.
THREADS, PROCESSES, AT_ONCE = 64, 4, 16
# How many connections of an address are admitted at once, how many are open as the program is stopped, and how long a client may be silent.
LIMIT, DRAINED, SILENT = 2, 200, '3s'
# Clients of which a scrape sees the acceptance and not yet the verdict, at most: all that there are, and as many that come meanwhile.
JUDGED = 2 * PROCESSES * AT_ONCE
FORK = multiprocessing.get_context('fork')
# Names of hosts are encoded by this. Threads of a process that was forked may fail to find it, unless it was looked up before.
codecs.lookup('idna')
WORDS = {'accepted': 'accepted', 'admitted': 'admitted', 'rejected': 'rejected', 'refused': 'refused by the server',
         'silent': 'ended by a silent client', 'drained': 'closed by the drain', 'ended': 'ended'}
METRICS = {'accepted': 'stickd_connections_accepted_total', 'admitted': 'stickd_connections_admitted_total',
           'rejected': 'stickd_connections_rejected_total', 'refused': 'stickd_connect_failures_total{cause="refused"}',
           'silent': 'stickd_timeouts_total{timeout="client"}', 'drained': 'stickd_connections_drained_total',
           'ended': 'stickd_connections_ended_total'}


class Greeter:
    """A server in a process of its own, which greets each client. Once it is stopped, its port refuses whoever comes."""

    def __init__(self):
        self.port = free_port()
        self.start()

    def start(self):
        with socket.create_server(('127.0.0.1', self.port), backlog=4096) as listener:
            self.process = FORK.Process(target=greet_all, args=(listener,), daemon=True)
            self.process.start()

    def stop(self):
        self.process.kill()
        self.process.join()

    def __enter__(self):
        return self

    def __exit__(self, *_):
        self.stop()


def greet_all(listener):
    """Greets each client, and closes once it has ended."""
    listener.setblocking(False)
    poll, clients = select.epoll(), {}
    poll.register(listener, select.EPOLLIN)
    while True:
        for number, _ in poll.poll():
            if number == listener.fileno():
                with contextlib.suppress(OSError):
                    client, _ = listener.accept()
                    clients[client.fileno()] = client
                    poll.register(client, select.EPOLLIN)
                    client.sendall(b'+')
                continue
            with contextlib.suppress(OSError):
                if clients[number].recv(4096):
                    continue
            clients.pop(number).close()


def served(proxy, source, mine):
    """A client that gets to the server, and ends."""
    with proxy.connect(source) as client:
        mine['admitted'] += is_greeted(client)
    mine['accepted'] += 1


def is_reset(proxy, source, mine):
    """A client that gets to the server, and resets."""
    client = proxy.connect(source)
    mine['admitted'] += is_greeted(client)
    mine['accepted'] += 1
    reset(client)


def one_too_many(proxy, source, mine):
    """A client that is rejected, as two of its address are there."""
    with contextlib.ExitStack() as stack:
        held = [stack.enter_context(proxy.connect(source)) for _ in range(LIMIT)]
        mine['admitted'] += sum(map(is_greeted, held))
        mine['rejected'] += not is_greeted(arrive(proxy, source))
    mine['accepted'] += LIMIT + 1


def is_silent(proxy, source, mine):
    """A client that says nothing, until it is closed for that. Where the machine is so busy that each stall of a thread begins its time
    anew, it ends by itself at last."""
    with proxy.connect(source) as client:
        mine['admitted'] += is_greeted(client)
        try:
            mine['silent'] += read_all(client) == b''
        except TimeoutError:
            mine['late'] += 1
    mine['accepted'] += 1


def without_server(proxy, source, mine):
    """A client that is admitted, whose connection the server refuses."""
    is_refused = not is_greeted(arrive(proxy, source))
    mine.update(accepted=1, admitted=is_refused, refused=is_refused)


# The fates of clients while the server is there, each as often as it stands here, and one in so many is silent.
FATES = [served, served, is_reset, one_too_many]
ONE_IN = 150


def fate_of(draw):
    return is_silent if draw.chance(ONE_IN) else draw.choice(FATES)


def visits(proxy, fate, draw, numbers, mine):
    """Clients come one after the other, each from an address of its own."""
    for number in numbers:
        source = f'127.{64 + (number >> 16)}.{number >> 8 & 255}.{number & 255}'
        (fate or fate_of(draw))(proxy, source, mine)


def crowd(proxy, fate, seed, numbers, told):
    """Clients of one process come, on threads, and tell what became of them."""
    every, threads = [collections.Counter() for _ in range(AT_ONCE)], []
    for lane, mine in enumerate(every):
        words = (proxy, fate, Draw('fates', seed, numbers[0], lane), numbers[lane::AT_ONCE], mine)
        threads.append(threading.Thread(target=visits, args=words))
    for thread in threads:
        thread.start()
    for thread in threads:
        thread.join()
    told.put(sum(every, collections.Counter()))


def come(proxy, fate, seed, numbers):
    """Clients of these numbers come from several processes: what became of them."""
    told = FORK.Queue()
    parts = [numbers[part::PROCESSES] for part in range(PROCESSES)]
    crowds = [FORK.Process(target=crowd, args=(proxy, fate, seed, part, told)) for part in parts]
    for process in crowds:
        process.start()
    sums = [told.get(timeout=20 * PATIENCE) for _ in crowds]
    for process in crowds:
        process.join()
    return sum(sums, collections.Counter())


class Scraper:
    """Scrapes again and again: at each, accepted is admitted, rejected and in hand, and no count has fallen."""

    def __init__(self, proxy, report):
        self.proxy, self.report, self.ends, self.most = proxy, report, threading.Event(), 0
        self.thread = threading.Thread(target=self.scrape)
        self.thread.start()

    def scrape(self):
        last = self.proxy.metrics()
        while not self.ends.wait(0.02):
            shown = self.proxy.metrics()
            judged = shown[METRICS['accepted']] - shown[METRICS['admitted']] - shown[METRICS['rejected']]
            self.most = max(self.most, judged)
            fallen = [name for name in last if name.endswith('_total') and shown[name] < last[name]]
            self.report.check(0 <= judged <= JUDGED and not fallen, f'{judged} in hand, fallen: {fallen}')
            last = shown

    def stop(self):
        self.ends.set()
        self.thread.join()


def told_by(metrics):
    return {fate: metrics[name] for fate, name in METRICS.items()}


def said_in(line):
    """The counts of a report's line; one that isn't told is 0."""
    return {fate: int(found[1]) if (found := re.search(rf'\b(\d+) {words}(?:[,;]|$)', line)) else 0 for fate, words in WORDS.items()}


def have_come(proxy, server, given, report):
    """Clients come while the server is there, and then while it isn't: what became of them. Two of three of the first make one
    connection, and the others three, so that there are as many connections as were asked for, or nearly."""
    first, second = given.count * 14 // 25, given.count * 11 // 50
    scraper = Scraper(proxy, report)
    try:
        mine = come(proxy, None, given.seed, range(first))
        wait_for('all have gone', lambda: proxy.metrics()['stickd_connections'] == 0)
        server.stop()
        mine += come(proxy, without_server, given.seed, range(first, first + second))
        server.start()
    finally:
        scraper.stop()
    report.tell(f'at most {scraper.most} in hand at a scrape')
    return mine


def is_drained(proxy, mine, report):
    """Clients that are there are closed behind the drain. The last line says what they, and all before them, came to."""
    held = [proxy.connect(f'127.0.{2 + number // 100}.{number % 100 + 1}') for number in range(DRAINED)]
    greeted = sum(map(is_greeted, held))
    mine.update(accepted=DRAINED, admitted=greeted, drained=greeted)
    stop = [stickd(), 'stop', '--stats-socket', proxy.stats, '--drain', '1s']
    subprocess.run(stop, stdin=subprocess.DEVNULL, timeout=PATIENCE, check=True)
    status, written, said = proxy.ended()
    calls = calls_of_clients(written, said, time.monotonic() - proxy.began)
    made = {'www': calls_made(proxy, mine)}
    report.check(status == 0 and calls == made, f'{(status, written)}: {calls} calls of clients, not {made}')
    line = [line for line in said.splitlines() if ' accepted, ' in line][-1]
    report.check(are_those_of(said_in(line), mine), f'the last line: {line}; the clients: {expected(mine)}')


def calls_made(proxy, mine):
    """How many calls its clients came to, and those who were told of it: each scrape, `stickd stop`, and the report at the end."""
    judged = mine['admitted'] * ADMITTED + mine['rejected'] * REJECTED + (mine['admitted'] + mine['rejected']) * LOOK
    return judged + len(proxy.scrapes) + 2


def expected(mine):
    """What the program has to tell of clients: each admitted one has ended."""
    return {fate: mine['admitted'] if fate == 'ended' else mine[fate] for fate in WORDS}


def are_those_of(told, mine):
    """Whether the counts that are told are those of the clients, and no more silent ones ended by themselves at last than were closed.
    One of those may be told as silent."""
    late = told['silent'] - mine['silent']
    return 0 <= late <= mine['late'] <= mine['silent'] and {**told, 'silent': mine['silent']} == expected(mine)


def fates(given):
    """Clients that are served, reset, rejected, silent too long, refused by the server, or drained, on 64 threads, with scrapes beside
    them: at each accepted is admitted, rejected and in hand, no count falls, and at the end all are those of the clients."""
    report = Report()
    raise_descriptors(8_192)
    words = ['--timeout-client', SILENT, '--report', '1h', '--connections', '2000']
    with Greeter() as server, Watched(server.port, [TABLE, TRACK, reject_above(LIMIT)], *words, threads=THREADS) as proxy:
        began = time.monotonic()
        mine = have_come(proxy, server, given, report)
        seconds = time.monotonic() - began
        wait_for('all have gone', lambda: proxy.metrics()['stickd_connections'] == 0)
        told = told_by(proxy.metrics())
        report.check(are_those_of(told, mine), f'told {told}, and there were {expected(mine)}')
        is_drained(proxy, mine, report)
    report.tried += mine['accepted']
    report.tell(f'{mine["accepted"]:,} connections, {mine["accepted"] / seconds:,.0f} a second: {dict(mine)}')
    return report
