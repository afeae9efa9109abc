"""Trials of the running proxy that stands still for a while, by a signal or at a new client, and of the clients that come then."""
import contextlib
import os
import select
import tempfile
import threading
import time

from lib.proxy import (TABLE, TRACK, EchoServer, Proxy, Server, closed_after, greets, is_closed, is_greeted, raise_descriptors, reset,
                        wait_for)
from lib.shims import build_shim

# A connection takes two descriptors here, its own and the server's.
CROWD = min(1000, (raise_descriptors(4000) - 200) // 2)
# How long a client that waits for a place may wait for what is to be at once, in seconds: a machine may be busy. One that is forgotten
# waits for ever, as nothing else happens meanwhile.
AT_ONCE = 5
# The time for clients where connections end by it, in ms: the greeting of a busy server comes well before. And a stall past it.
SILENT_FOR, PAST_IT = 1500, 1.7
# Within how many seconds behind its time a silent client is closed: two looks, 100 ms apart, and room for a machine that is busy.
LATE = 0.2 + 0.6


class Speakers:
    """So many clients that each say something again and again, from when they have connected until they are left."""

    def __init__(self, proxy, count, pause):
        self.proxy, self.count, self.pause, self.clients = proxy, count, pause, []
        self.ends, self.thread = threading.Event(), threading.Thread(target=self.speak)

    def speak(self):
        while not self.ends.wait(self.pause):
            for client in list(self.clients):
                with contextlib.suppress(OSError):
                    client.send(b'x')

    def count_closed(self):
        """How many of them are closed by now."""
        return sum(map(is_closed, self.clients))

    def __enter__(self):
        self.thread.start()
        for _ in range(self.count):
            client = self.proxy.connect()
            client.setblocking(False)
            self.clients.append(client)
        return self

    def __exit__(self, *_):
        self.ends.set()
        self.thread.join()
        for client in self.clients:
            client.close()


def a_stall_closes_nobody_who_speaks():
    """Behind a stall that is longer than the time for clients, none of 1,000 that speak twice a second is closed, as none of them was
    silent. One that has said nothing since before the stall is closed at the latest its whole time behind it."""
    with EchoServer() as server, Proxy(server.port, [TABLE, TRACK], '--timeout-client', '2s', threads=2) as proxy:
        with Speakers(proxy, CROWD, 0.5) as speakers:
            silent = proxy.connect()
            wait_for('all are tracked', lambda: proxy.rows().get('127.0.0.1', {}).get('use') == CROWD + 1)
            time.sleep(1)
            proxy.stall(2.5)
            assert (took := closed_after(silent)) < 2 + 2 * LATE, f'the silent one is there for {took:.2f} s'
            closed = speakers.count_closed()
            assert closed == 0, f'{closed} of {CROWD} that spoke are closed'
            assert proxy.rows()['127.0.0.1']['use'] == CROWD, proxy.rows()


def a_silent_client_is_closed_in_its_time():
    """Without a stall a client that says nothing for 700 ms is closed then, beside clients that speak."""
    with EchoServer() as server, Proxy(server.port, [TABLE, TRACK], '--timeout-client', '700ms', threads=1) as proxy:
        with Speakers(proxy, 50, 0.1) as speakers:
            took = [closed_after(proxy.connect()) for _ in range(2)]
            assert all(0.65 < one < 0.7 + LATE for one in took), took
            assert speakers.count_closed() == 0, 'one that spoke is closed'


def a_silent_client_is_closed_however_often_it_stalls():
    """A client that says nothing for 1 s is closed though the proxy stands still again and again, each time for longer than half a
    second, and runs for a fifth of one in between. One that speaks is not."""
    with EchoServer() as server, Proxy(server.port, [TABLE, TRACK], '--timeout-client', '1s', threads=1) as proxy:
        with Speakers(proxy, 5, 0.1) as speakers:
            silent = proxy.connect()
            for _ in range(20):
                proxy.stall(0.6)
                time.sleep(0.2)
            assert is_closed(silent), 'the silent one is there behind 20 stalls'
            assert speakers.count_closed() == 0, 'one that spoke is closed'


def a_worker_that_is_held_up_closes_nobody_who_speaks():
    """A worker that stands still at new clients, all in all for longer than the time for clients, as one does behind a lock that a
    listing holds, closes none who speaks meanwhile. 48 come at once, each of which holds it up for 60 ms: so there are more of them
    when all who speak are ready."""
    slow = '127.0.0.9'
    with tempfile.TemporaryDirectory(prefix='stickd-') as room, EchoServer() as server:
        held_up = {**os.environ, 'LD_PRELOAD': build_shim(room, 'slow_accept'), 'SLOW_CLIENT': slow, 'SLOW_FOR': '60'}
        with Proxy(server.port, [TABLE, TRACK], '--timeout-client', '600ms', threads=1, environment=held_up) as proxy:
            with Speakers(proxy, 100, 0.1) as speakers:
                wait_for('all are tracked', lambda: proxy.rows().get('127.0.0.1', {}).get('use') == speakers.count)
                newcomers = [proxy.newcomer(slow) for _ in range(48)]
                wait_for('all have come', lambda: proxy.rows().get(slow, {}).get('conn_cnt') == len(newcomers))
                time.sleep(0.5)
                closed = speakers.count_closed()
        for client in newcomers:
            client.close()
        assert closed == 0, f'{closed} of {speakers.count} that spoke are closed'


def many_come_at_once():
    """600 clients that come while the proxy stands still are all connected at once, and are all served afterwards. One for which the
    queue of the listener had no room would try again after a second."""
    with open('/proc/sys/net/core/somaxconn', encoding='ascii') as most:
        crowd = min(600, int(most.read()))
    with EchoServer() as server, Proxy(server.port, [TABLE, TRACK], threads=2) as proxy:
        with proxy.stopped():
            clients = [proxy.newcomer() for _ in range(crowd)]
            poll = select.poll()
            for client in clients:
                poll.register(client, select.POLLOUT)
            time.sleep(0.4)
            connected = len(poll.poll(0))
        for client in clients:
            client.settimeout(10)
        assert connected == crowd, f'{connected} of {crowd} are connected at once'
        for client in clients:
            client.sendall(b'+')
        assert all(map(is_greeted, clients)), 'each is served'
        for client in clients:
            client.close()


# How the connections end for which a client waits, and what the program is started with for that.
ENDINGS = {
    'close': (lambda client: client.close(), []),
    'reset': (reset, []),
    'timeout': (lambda client: None, ['--timeout-client', f'{SILENT_FOR}ms']),
}


def comes_where_all_places_end(proxy, held_at_once, ends, stall):
    """Holds as many connections as there may be. While the proxy stands still, for so many seconds, one more client comes, and all
    others end: then that one is served."""
    held = [proxy.connect() for _ in range(held_at_once)]
    greeted = sum(map(is_greeted, held))
    assert greeted == held_at_once, f'{greeted} of {held_at_once} are served'
    with proxy.stopped():
        one_more = proxy.newcomer()
        for client in held:
            ends(client)
        time.sleep(stall)
    one_more.settimeout(AT_ONCE)
    assert is_greeted(one_more), f'the one that waited is not served within {AT_ONCE} s'
    one_more.close()
    for client in held:
        client.close()


def is_never_forgotten(threads, ending, seconds, rounds):
    """Rounds of a client that waits for a place while all others end, for so many seconds and at least three, or so many rounds."""
    ends, words = ENDINGS[ending]
    stall = PAST_IT if ending == 'timeout' else 0
    held_at_once = max(4, threads)
    with Server(greets) as server:
        with Proxy(server.port, [TABLE, TRACK], '--connections', str(held_at_once), *words, threads=threads) as proxy:
            began, made = time.monotonic(), 0
            while made < rounds if rounds else made < 3 or time.monotonic() < began + seconds:
                try:
                    comes_where_all_places_end(proxy, held_at_once, ends, stall)
                except AssertionError as fault:
                    raise AssertionError(f'{threads} threads, ends by {ending}, round {made + 1}: {fault}') from fault
                made += 1


def one_that_waits_is_never_forgotten(rounds=None):
    """A client that comes while all places are taken, and the proxy stands still, is served as soon as they have ended: on one, two
    and eight threads, however they end."""
    faults = []
    for threads in (1, 2, 8):
        for ending in ENDINGS:
            try:
                is_never_forgotten(threads, ending, 3, rounds)
            except AssertionError as fault:
                faults.append(str(fault))
    assert not faults, faults


TRIALS = [a_stall_closes_nobody_who_speaks, a_silent_client_is_closed_in_its_time, a_silent_client_is_closed_however_often_it_stalls,
          a_worker_that_is_held_up_closes_nobody_who_speaks, many_come_at_once, one_that_waits_is_never_forgotten]
