"""Trials of a program that has nothing to do: its threads sleep, and wake as soon as there is something."""
import os
import tempfile
import time

from lib.proxy import TABLE, TRACK, FarServer, Proxy, free_port, wait_for

# How long a program is looked at, in seconds, and how soon something is to be seen that happens at once.
A_WHILE, SOON = 5, 2

# How often a second the threads of a program that has nothing to do wake together, at most.
MOST_WAKES = 10


def wakes_in(proxy, seconds):
    """How often a second the program's threads wake."""
    before = proxy.switches()
    time.sleep(seconds)
    return sum(count - before.get(thread, 0) for thread, count in proxy.switches().items()) / seconds


def an_idle_program_sleeps():
    """16 threads without a connection, and those that answer commands, scrapes and HAProxy's tools, wake 10 times a second together at
    most: the one that does the housekeeping wakes four times, and so does the one that reports, where there is something to report or a
    signal to look for. So it is again once a client was served.
    HAProxy with 16 threads wakes 16 times."""
    with tempfile.TemporaryDirectory(prefix='stickd-') as room:
        sockets = ['--stats-socket', os.path.join(room, 'stats'), '--metrics', f'127.0.0.1:{free_port()}']
        for words in ([], sockets):
            with FarServer() as server, Proxy(server.port, [TABLE, TRACK], *words, threads=16) as proxy:
                assert (wakes := wakes_in(proxy, A_WHILE)) <= MOST_WAKES, f'{wakes:.0f} times a second'
                for end in server.joined(proxy):
                    end.close()
                wait_for('the reference goes back', proxy.is_unused, SOON)
                assert (wakes := wakes_in(proxy, A_WHILE)) <= MOST_WAKES, f'{wakes:.0f} times a second once a client was served'


def each_that_sleeps_is_woken():
    """Of 16 threads that sleep each has its turn at the listener, 40 clients of the command socket are answered that come one by one, and
    the program ends as soon as its last connection has."""
    with FarServer() as server, Proxy(server.port, [TABLE, TRACK], '--stop-after', '32', threads=16) as proxy:
        time.sleep(0.5)
        for _ in range(40):
            assert proxy.command('show table\n', SOON).startswith('# table: www'), 'a command is answered'
        clients = [server.joined(proxy) for _ in range(32)]
        for client, far in clients:
            client.close()
            far.close()
        began = time.monotonic()
        status, _, _ = proxy.ended()
        assert status == 0 and time.monotonic() - began < SOON, f'status {status} after {time.monotonic() - began:.1f} s'


TRIALS = [an_idle_program_sleeps, each_that_sleeps_is_woken]
