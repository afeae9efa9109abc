"""Trials of the running proxy whose peers end their connections in every way: in order, one way alone, or by a reset."""
import contextlib
import os
import socket
import subprocess
import threading
import time

from lib.proxy import (PATIENCE, TABLE, TRACK, FarServer, Proxy, Server, closed_after, end_of, hears_end, read_all, reset, wait_for)
from lib.trials import wants

# How soon something is to be seen that happens at once, in seconds.
SOON = 2


def use_of(proxy):
    """How many references the entry of the clients has."""
    return proxy.rows().get('127.0.0.1', {}).get('use')


@contextlib.contextmanager
def slow_server():
    """A server whose queue is full at first, so that connecting to it takes about a second; then it greets its clients."""
    with socket.socket() as listener:
        listener.bind(('127.0.0.1', 0))
        listener.listen(0)
        fillers = []
        for _ in range(4):
            fillers.append(socket.socket())
            fillers[-1].setblocking(False)
            fillers[-1].connect_ex(listener.getsockname())
        time.sleep(0.1)
        ports = {filler.getsockname()[1] for filler in fillers}

        def greet():
            with contextlib.suppress(OSError):
                listener.settimeout(PATIENCE)
                while True:
                    client, (_, port) = listener.accept()
                    with client:
                        if port not in ports:
                            client.settimeout(PATIENCE)
                            client.sendall(b'+')
                            read_all(client)
        starting = threading.Timer(0.3, greet)
        starting.daemon = True
        yield listener.getsockname()[1], starting
        for filler in fillers:
            filler.close()


def shuts_its_way(proxy):
    """What a client gets that shuts its writing side at once."""
    with proxy.connect() as client:
        client.shutdown(socket.SHUT_WR)
        return read_all(client)


def runs_netcat(proxy):
    """What nc gets whose input is empty, and which shuts its writing side for that."""
    words = ['nc', '-N', '127.0.0.1', str(proxy.port)]
    return subprocess.run(words, stdin=subprocess.DEVNULL, stdout=subprocess.PIPE, timeout=PATIENCE, check=False).stdout


def one_way_may_end_before_the_server_accepts():
    """A client that has nothing to say, and ends its way before its server has accepted, gets what the server says all the same."""
    is_served_late(shuts_its_way)


def netcat_may_end_its_way_before_the_server_accepts():
    """The same of nc."""
    wants('nc')
    is_served_late(runs_netcat)


def is_served_late(client):
    """Sees that a client gets what a server says that accepts late."""
    with slow_server() as (port, starting), Proxy(port, [TABLE, TRACK], threads=1) as proxy:
        starting.start()
        assert (got := client(proxy)) == b'+', got


def an_end_passes_as_it_came():
    """A reset reaches the other side as a reset, and an orderly end in order: from the client and from the server, just behind bytes
    that have arrived, and later."""
    faults = []
    with FarServer() as server, Proxy(server.port, [TABLE, TRACK], threads=1) as proxy:
        for from_client in (True, False):
            for before in (b'', b'abc'):
                for ends, wanted in ((reset, 'reset'), (socket.socket.close, 'orderly')):
                    client, far = server.joined(proxy)
                    near, other = (client, far) if from_client else (far, client)
                    near.sendall(before)
                    heard = b''
                    while heard != before:
                        heard += other.recv(3)
                    ends(near)
                    seen = end_of(other)
                    if seen != wanted:
                        faults.append(f'{"client" if from_client else "server"}, {ends.__name__}: {seen}')
                    other.close()
        wait_for('all are gone', lambda: use_of(proxy) == 0)
    assert not faults, faults


def a_reset_behind_an_end_says_nothing():
    """Where one side has ended its way, a reset of it says nothing to the other, which has its end: what that one still sends nobody
    takes, and as it ends the reference goes back. With --timeout-fin 500ms that comes at the latest when nothing has passed for so long."""
    faults = []
    for from_client in (True, False):
        for words in ([], ['--timeout-fin', '500ms']):
            with FarServer() as server, Proxy(server.port, [TABLE, TRACK], *words, threads=1) as proxy:
                client, far = server.joined(proxy)
                near, other = (client, far) if from_client else (far, client)
                near.shutdown(socket.SHUT_WR)
                assert other.recv(1) == b'', 'the end of one way is passed on'
                reset(near)
                try:
                    other.sendall(b'.')
                    assert not hears_end(other, 0.3), 'the other side is told'
                    if not words:
                        assert use_of(proxy) == 1, 'the connection has ended'
                        other.close()
                    wait_for('the reference goes back', lambda: use_of(proxy) == 0, SOON)
                except AssertionError as fault:
                    faults.append(f'{"client" if from_client else "server"} {words}: {fault}')
                other.close()
    assert not faults, faults


def keepalive_timers(*ports):
    """Of the connections between these local and remote ports, when their keepalive timers ring, in seconds; None where none is set.
    As /proc/net/tcp tells them: 02 is the timer by which an idle connection is asked, and its time is in hundredths."""
    timers = []
    with open('/proc/net/tcp', encoding='ascii') as lines:
        for fields in map(str.split, list(lines)[1:]):
            if tuple(int(end.split(':')[1], 16) for end in fields[1:3]) in ports and fields[3] == '01':
                kind, rings = fields[5].split(':')
                timers.append(int(rings, 16) / os.sysconf('SC_CLK_TCK') if kind == '02' else None)
    return timers


def both_sides_are_asked_whether_they_live():
    """With --keepalive 1s the client's connection and the server's are asked once they were idle for a second, and the program goes
    on where they answer."""
    with FarServer() as server, Proxy(server.port, [TABLE, TRACK], '--keepalive', '1s', threads=1) as proxy:
        client, far = server.joined(proxy)
        ends = [(proxy.port, client.getsockname()[1]), (far.getpeername()[1], server.port)]
        for _ in range(3):
            timers = keepalive_timers(*ends)
            assert len(timers) == 2 and all(rings is not None and rings <= 1.1 for rings in timers), timers
            time.sleep(0.7)
        client.sendall(b'+')
        assert far.recv(1) == b'+', 'it is open'


def one_that_pauses_is_not_cut():
    """With --keepalive 1s a client that reads nothing for 8 seconds of what its server sends gets all of it, as its system answers
    each probe."""
    count = 10_000_000
    with Server(lambda client: client.sendall(b'+' * count)) as server:
        with Proxy(server.port, [TABLE, TRACK], '--keepalive', '1s', threads=1) as proxy, proxy.connect() as client:
            assert client.recv(1) == b'+', 'it is served'
            time.sleep(8)
            assert (came := 1 + len(read_all(client))) == count, f'{came} bytes'


def one_that_acknowledges_nothing_is_given_up():
    """With --tcp-user-timeout 1s a client that takes nothing of what its server sends is given up within seconds, and the server hears
    it; without, both go on. A connection through which nothing passes stays."""
    for words in (['--tcp-user-timeout', '1s'], []):
        with FarServer() as server, Proxy(server.port, [TABLE, TRACK], *words, threads=1) as proxy:
            idle, far_of_idle = server.joined(proxy)
            client, far = server.joined(proxy)
            far.setblocking(False)
            with contextlib.suppress(BlockingIOError):
                while True:
                    far.send(b'+' * 65536)
            assert hears_end(far, 10) == bool(words), f'{words}: the server hears it'
            idle.sendall(b'+')
            assert far_of_idle.recv(1) == b'+', f'{words}: the idle one is open'
            wait_for('what is counted', lambda: use_of(proxy) == (1 if words else 2), SOON)
            client.close()
            far.close()


def one_way_alone_has_its_time():
    """With --timeout-fin 500ms a connection of which one way has ended is closed when nothing has passed for so long, whichever side
    ended it; one of which both are open stays."""
    with FarServer() as server, Proxy(server.port, [TABLE, TRACK], '--timeout-fin', '500ms', threads=1) as proxy:
        whole, far_of_whole = server.joined(proxy)
        for from_client in (True, False):
            client, far = server.joined(proxy)
            near, other = (client, far) if from_client else (far, client)
            began = time.monotonic()
            near.shutdown(socket.SHUT_WR)
            assert other.recv(1) == b'', 'the end of one way is passed on'
            closed_after(near)
            took = time.monotonic() - began
            assert 0.45 < took < 0.5 + 0.2 + 0.6, f'{"client" if from_client else "server"}: closed after {took:.2f} s'
            near.close()
            other.close()
        wait_for('one is left', lambda: use_of(proxy) == 1, SOON)
        whole.sendall(b'+')
        assert far_of_whole.recv(1) == b'+', 'the whole one is open'


TRIALS = [one_way_may_end_before_the_server_accepts, netcat_may_end_its_way_before_the_server_accepts, an_end_passes_as_it_came,
          a_reset_behind_an_end_says_nothing, both_sides_are_asked_whether_they_live, one_that_pauses_is_not_cut,
          one_that_acknowledges_nothing_is_given_up, one_way_alone_has_its_time]
