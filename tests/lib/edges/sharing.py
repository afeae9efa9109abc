"""Trials of how threads share clients that come at once and stay, and of threads that are held up meanwhile."""
import contextlib
import os
import random
import tempfile
import time

from lib.proxy import PATIENCE, TABLE, TRACK, EchoServer, Proxy, wait_for
from lib.shims import build_shim

# Each connection has two sockets.
SIDES = 2


def watched_by(proxy):
    """How many sockets each thread watches, by the descriptors of what it waits with (proc(5), fdinfo)."""
    folder, counts = f'/proc/{proxy.program.pid}', {}
    for number in os.listdir(f'{folder}/fd'):
        # A connection's descriptor may be closed since it was listed.
        with contextlib.suppress(FileNotFoundError):
            if os.readlink(f'{folder}/fd/{number}') == 'anon_inode:[eventpoll]':
                with open(f'{folder}/fdinfo/{number}', encoding='ascii') as lines:
                    counts[number] = frozenset(line.split()[1] for line in lines if line.startswith('tfd:'))
    # What a thread waits with is open twice: it is told of clients through a copy.
    return [len(sockets) for sockets in counts.values()]


def held_by(proxy, threads, idle):
    """How many connections each thread holds, where it watches so many sockets without any."""
    watched = sorted(watched_by(proxy))
    assert len(watched) == 2 * threads and watched[::2] == watched[1::2], watched
    return [(count - idle) // SIDES for count in watched[::2]]


def come_at_once(proxy, count):
    """So many clients that have all come through to the server."""
    clients = [proxy.newcomer() for _ in range(count)]
    for client in clients:
        client.settimeout(PATIENCE)
        client.sendall(b'+')
    for client in clients:
        assert client.recv(1) == b'+', 'a byte comes back'
    return clients


def are_shared_out(threads, count, most):
    """So many clients come at once to so many threads; then half of them go, and as many come. Each time what threads hold
    differs by so many at most."""
    with EchoServer() as server, Proxy(server.port, [TABLE, TRACK], threads=threads) as proxy:
        wait_for('the threads wait', lambda: len(watched_by(proxy)) == 2 * threads)
        idle = min(watched_by(proxy))
        clients = come_at_once(proxy, count)
        held = held_by(proxy, threads, idle)
        assert sum(held) == count and max(held) - min(held) <= 1, f'{count} clients on {threads} threads: {held}'
        random.shuffle(clients)
        for client in clients[count // 2:]:
            client.close()
        wait_for('they are gone', lambda: proxy.rows()['127.0.0.1']['use'] == count // 2)
        # Until each thread has shown what it holds.
        time.sleep(0.05)
        clients[count // 2:] = come_at_once(proxy, count - count // 2)
        held = held_by(proxy, threads, idle)
        assert sum(held) == count and max(held) - min(held) <= most, f'{count} clients on {threads} threads, half of them new: {held}'
        for client in clients:
            client.close()


def clients_that_stay_are_shared_out(rounds=None):
    """16, 50 and 200 clients that come at once to 4 threads, and 192 to 64 threads, are held by all of them alike: none holds more than
    one more than another. So it is, but for two, once half of them have gone and as many have come."""
    for threads, count in ((4, 16), (4, 50), (4, 200), (64, 192)):
        for _ in range(rounds or 2):
            are_shared_out(threads, count, 2)


def nobody_waits_for_a_thread_that_is_held_up():
    """A thread that stands still for 5 s at a client, and holds fewest, keeps nobody waiting: 20 clients that come meanwhile are served
    well before, as the others look each tick whether the one that is told of clients has waited since."""
    slow = '127.0.0.9'
    with tempfile.TemporaryDirectory(prefix='stickd-') as room, EchoServer() as server:
        held_up = {**os.environ, 'LD_PRELOAD': build_shim(room, 'slow_accept'), 'SLOW_CLIENT': slow, 'SLOW_FOR': '5000'}
        with Proxy(server.port, [TABLE, TRACK], threads=4, environment=held_up) as proxy:
            clients = come_at_once(proxy, 15)
            clients.append(proxy.newcomer(slow))
            time.sleep(0.1)
            began = time.monotonic()
            clients += come_at_once(proxy, 20)
            took = time.monotonic() - began
            for client in clients:
                client.close()
        assert took < 2.5, f'they took {took:.2f} s'


TRIALS = [clients_that_stay_are_shared_out, nobody_waits_for_a_thread_that_is_held_up]
