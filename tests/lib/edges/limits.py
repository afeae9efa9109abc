"""Trials of the running proxy at its limits: descriptors, connections a thread, and what accepting a client may fail with."""
import concurrent.futures
import contextlib
import errno
import os
import select
import sys
import tempfile
import threading
import time

from lib.proxy import PATIENCE, TABLE, TRACK, Proxy, Server, greets, is_greeted
from lib.shims import build_shim


def greeted_of(clients):
    """Those of the clients that are greeted, until none more was for half a second. None of them may be closed."""
    poll, by_number, greeted = select.poll(), {client.fileno(): client for client in clients}, []
    for number in by_number:
        poll.register(number, select.POLLIN)
    while ready := poll.poll(500 if greeted else PATIENCE * 1000):
        for number, _ in ready:
            poll.unregister(number)
            assert is_greeted(by_number[number]), f'a client is closed without an answer, when {len(greeted)} were greeted'
            greeted.append(by_number[number])
    return greeted


def is_each_served(descriptors):
    """Has 60 clients come to a proxy with so many descriptors, and says what went wrong. Those that are served stay at first."""
    try:
        with Server(greets) as server, Proxy(server.port, [TABLE, TRACK], threads=2, descriptors=descriptors) as proxy:
            waiting = [proxy.connect() for _ in range(60)]
            greeted = greeted_of(waiting)
            assert 0 < len(greeted) < 60, f'{len(greeted)} of 60 are served at first'
            while waiting := [client for client in waiting if client not in greeted]:
                for client in greeted:
                    client.close()
                greeted = greeted_of(waiting)
                assert greeted, f'{len(waiting)} are never served'
            for client in greeted:
                client.close()
    except (AssertionError, OSError) as fault:
        return f'{descriptors} descriptors: {fault}'
    return None


def no_client_is_closed_for_want_of_descriptors():
    """With 40 to 61 descriptors, an odd number or an even one, 60 clients are served as others leave: those for which there are too
    few wait to be accepted, and none is closed instead."""
    with concurrent.futures.ThreadPoolExecutor(8) as pool:
        faults = list(filter(None, pool.map(is_each_served, range(40, 62))))
    assert not faults, faults


def all_places_are_used():
    """As many connections are served at once as there may be, also where they can't be shared out evenly among the threads; one more
    waits until another ends."""
    faults = []
    for connections, threads in ((7, 4), (5, 2), (3, 8)):
        with Server(greets) as server:
            with Proxy(server.port, [TABLE, TRACK], '--connections', str(connections), threads=threads) as proxy:
                clients = [proxy.connect() for _ in range(connections + 1)]
                greeted = []
                with contextlib.suppress(AssertionError):
                    greeted = greeted_of(clients)
                if len(greeted) != connections:
                    faults.append(f'--connections {connections} --threads {threads}: {len(greeted)} are served at once')
                    continue
                for client in greeted:
                    client.close()
                assert all(map(is_greeted, [client for client in clients if client not in greeted])), 'the last one is served'
    assert not faults, faults


# What accept(2) says may be handed on of a connection that failed while it waited: to be treated as if there were none yet.
PASSING = [errno.ENETDOWN, errno.EPROTO, errno.ENOPROTOOPT, errno.EHOSTDOWN, errno.ENONET, errno.EHOSTUNREACH, errno.EOPNOTSUPP,
           errno.ENETUNREACH]


def passing_errors_hold_nobody_up():
    """Where accepting fails with an error of the network that is of one connection alone, the client behind it is accepted at once,
    and not with the next look, 100 ms later. Each error is met three times, and the best time counts."""
    took = {error: [] for error in PASSING}
    with tempfile.TemporaryDirectory(prefix='stickd-') as room, Server(greets) as server:
        refused = {**os.environ, 'LD_PRELOAD': build_shim(room, 'refuse_accept'), 'REFUSED_ACCEPTS': ','.join(map(str, PASSING * 3))}
        with Proxy(server.port, [TABLE, TRACK], threads=1, environment=refused) as proxy:
            # They stay, as a connection that ends has others tried at once. Each comes just behind a look that served the one before.
            clients = []
            for error in PASSING * 3:
                began = time.monotonic()
                clients.append(proxy.connect())
                assert is_greeted(clients[-1]), f'{errno.errorcode[error]}: not served'
                took[error].append(time.monotonic() - began)
            for client in clients:
                client.close()
    slow = {errno.errorcode[error]: [f'{one * 1000:.0f} ms' for one in times] for error, times in took.items() if min(times) > 0.08}
    assert not slow, slow


# How many bytes of one connection are read at most before the others that are ready have their turn: two reads of 64 KiB in each of
# the turns that its two sockets may have one after the other, and two more that are dropped where its other side has failed.
SHARE = 393_216


def one_that_sends_much_leaves_turns_to_others():
    """Beside 10 connections whose servers send as much as passes, on one thread, no more than 384 KiB of one of them are read before
    the others have their turn: so a byte there and back waits for that much of each of them at most."""
    def sends(client):
        if client.recv(1) == b'!':
            while True:
                client.sendall(bytes(1 << 20))
        client.sendall(b'+')

    def takes(client):
        client.sendall(b'!')
        with contextlib.suppress(OSError):
            while not ends.is_set() and client.recv(1 << 20):
                pass
    ends = threading.Event()
    with tempfile.TemporaryDirectory(prefix='stickd-') as room, Server(sends) as server:
        counted = os.path.join(room, 'counted')
        with open(counted, 'wb') as file:
            file.write(bytes(8))
        environment = {**os.environ, 'LD_PRELOAD': build_shim(room, 'count_reads'), 'COUNTED_READS': counted}
        with Proxy(server.port, [TABLE, TRACK], threads=1, environment=environment) as proxy:
            taking = [threading.Thread(target=takes, args=(proxy.connect(),)) for _ in range(10)]
            for one in taking:
                one.start()
            time.sleep(1)
            with proxy.connect() as client:
                client.sendall(b'?')
                assert is_greeted(client), 'another is served'
            # What a server still sends to those that leave is read too, and dropped.
            ends.set()
            for one in taking:
                one.join()
        with open(counted, 'rb') as file:
            most = int.from_bytes(file.read(), sys.byteorder)
    assert 0 < most <= SHARE, f'{most} bytes of one connection were read at once'


TRIALS = [no_client_is_closed_for_want_of_descriptors, all_places_are_used, passing_errors_hold_nobody_up,
          one_that_sends_much_leaves_turns_to_others]
