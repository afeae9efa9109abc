"""Trials of a proxy that listens at several addresses: each is served, none holds up another, and rules see the port."""
import contextlib
import os
import socket
import subprocess
import tempfile
import threading
import time

from lib.places import stickd
from lib.proxy import PATIENCE, TABLE, TRACK, Proxy, Server, free_port, greets, is_greeted


def client_at(host, port):
    """A client of this address; none where it is reset before it knows that it is connected."""
    with contextlib.suppress(ConnectionResetError):
        client = socket.create_connection((host, port), PATIENCE)
        client.settimeout(PATIENCE)
        return client
    return None


def is_served_at(host, port):
    """Whether a client of this address gets to the server."""
    client = client_at(host, port)
    with client or contextlib.nullcontext():
        return is_greeted(client)


def each_address_is_served():
    """Clients of each address get to the server, ten times in turn, on one thread and on four. A rule on dst_port holds of the
    clients of that port alone."""
    for threads in (1, 4):
        second, third, barred = free_port(), free_port(), free_port()
        rules = [TABLE, f'tcp-request connection reject if {{ dst_port {barred} }}', TRACK]
        words = ['--bind', f'127.0.0.2:{second}', '--bind', f'[::1]:{third}', '--bind', f'127.0.0.1:{barred}']
        with Server(greets) as server, Proxy(server.port, rules, *words, threads=threads) as proxy:
            for _ in range(10):
                for host, port in (('127.0.0.1', proxy.port), ('127.0.0.2', second), ('::1', third)):
                    assert is_served_at(host, port), f'{host}:{port} with {threads} threads'
                assert not is_served_at('127.0.0.1', barred), f'the port that a rule bars, with {threads} threads'


def a_flood_at_one_address_holds_up_no_other():
    """While three threads connect to one address without a pause, a client of another is served within a second, 20 times."""
    second, over = free_port(), threading.Event()

    def floods(port):
        while not over.is_set():
            with contextlib.suppress(OSError), socket.create_connection(('127.0.0.1', port), PATIENCE) as client:
                client.recv(1)

    rules = [TABLE, 'tcp-request connection reject if { dst_port %d }', TRACK]
    with Server(greets) as server:
        flooded = free_port()
        rules[1] %= flooded
        words = ['--bind', f'127.0.0.1:{second}', '--bind', f'127.0.0.1:{flooded}']
        with Proxy(server.port, rules, *words, threads=1):
            flood = [threading.Thread(target=floods, args=(flooded,)) for _ in range(3)]
            for one in flood:
                one.start()
            slowest = 0
            for _ in range(20):
                began = time.monotonic()
                assert is_served_at('127.0.0.1', second), 'a client of the other address'
                slowest = max(slowest, time.monotonic() - began)
            over.set()
            for one in flood:
                one.join()
    assert slowest < 1, f'{slowest:.1f} s'


def an_address_that_is_taken_is_named():
    """Where one of the addresses can't be bound, it is named, the status is 1, and nothing listens."""
    with socket.create_server(('127.0.0.1', 0)) as taken, tempfile.TemporaryDirectory(prefix='stickd-') as room:
        port, first = taken.getsockname()[1], free_port()
        conf = os.path.join(room, 'proxy.cfg')
        with open(conf, 'w', encoding='utf-8') as file:
            file.write(f'listen www\n    bind 127.0.0.1:{first}\n    {TABLE}\n    server one 127.0.0.1:9\n')
        words = [stickd(), 'run', conf, '--socket', os.path.join(room, 'commands'), '--threads', '1', '--bind', f'127.0.0.1:{port}']
        ran = subprocess.run(words, capture_output=True, text=True, timeout=PATIENCE, check=False)
        assert ran.returncode == 1, ran
        assert f"stickd: 127.0.0.1:{port} can't be bound: " in ran.stderr, ran.stderr
        assert not os.path.exists(os.path.join(room, 'commands')), 'the socket is there'


TRIALS = [each_address_is_served, a_flood_at_one_address_holds_up_no_other, an_address_that_is_taken_is_named]
