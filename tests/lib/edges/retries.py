"""Trials of a server that refuses: it is tried again as often as was asked, a second apart, and what the client sent isn't lost."""
import contextlib
import os
import socket
import tempfile
import threading
import time

from lib.proxy import (PATIENCE, TABLE, TRACK, FarServer, Proxy, Server, arrive, closed_after, echoes, end_of, free_port, greets, is_greeted,
                       read_all, reject_above, reset, wait_for)
from lib.shims import build_shim


def opens_after(seconds, port, serve):
    """A server that listens at this port after so many seconds, and serves one client."""
    def serve_one():
        time.sleep(seconds)
        with socket.create_server(('127.0.0.1', port)) as listener:
            listener.settimeout(PATIENCE)
            with contextlib.suppress(OSError):
                client, _ = listener.accept()
                client.settimeout(PATIENCE)
                with client:
                    serve(client)

    server = threading.Thread(target=serve_one)
    server.start()
    return server


def a_server_that_comes_gets_all():
    """A client sends before the server listens, and once more while it is waited for: the server that comes half a second later gets
    all of it in order, as does one that comes behind two more tries; and its answer comes back."""
    for late, threads in ((0.5, 1), (1.5, 2)):
        port = free_port()
        with Proxy(port, [TABLE, TRACK], '--retries', '3', threads=threads) as proxy, proxy.connect() as client:
            server = opens_after(late, port, echoes)
            client.sendall(b'first ')
            time.sleep(0.2)
            client.sendall(b'second')
            client.shutdown(socket.SHUT_WR)
            said = read_all(client)
            server.join()
            assert said == b'first second', (late, said)
            wait_for('its references are given back', proxy.is_unused)
            row = proxy.rows()['127.0.0.1']
            assert (row['bytes_in_cnt'], row['bytes_out_cnt']) == (12, 12), row


def it_is_tried_as_often_as_asked():
    """A client of a server that never listens is closed at once without --retries; and with N after N seconds, and soon then. Each
    is an end and no reset."""
    for retries, least, most in ((0, 0, 0.9), (1, 0.9, 1.9), (2, 1.9, 2.9)):
        with Proxy(free_port(), [TABLE, TRACK], '--retries', str(retries), threads=1) as proxy, proxy.connect() as client:
            began = time.monotonic()
            assert client.recv(1) == b'', 'an end'
            took = time.monotonic() - began
            assert least <= took < most, f'--retries {retries}: closed after {took:.2f} s'
            wait_for('its reference is given back', proxy.is_unused)


def a_client_that_leaves_is_noticed():
    """A client that resets its connection while its server is waited for gives its reference back by the next try."""
    with Proxy(free_port(), [TABLE, TRACK], '--retries', '1000', threads=1) as proxy:
        client = proxy.connect()
        wait_for('it is tracked', lambda: proxy.rows().get('127.0.0.1', {}).get('conn_cur') == 1)
        reset(client)
        took = wait_for('its reference is given back', proxy.is_unused)
        assert took < 2.5, f'{took:.1f} s'


def a_server_that_accepted_is_not_tried_again():
    """A server that accepts and then resets its connection ends the client's at once, however many tries are left: where a byte has
    passed, and where none has, once the system was asked."""
    for passes in (True, False):
        with FarServer() as server, Proxy(server.port, [TABLE, TRACK], '--retries', '5', threads=1) as proxy, proxy.connect() as client:
            far, _ = server.listener.accept()
            if passes:
                client.sendall(b'.')
                assert far.recv(1) == b'.', 'a byte passes'
            else:
                time.sleep(1)
            reset(far)
            took = closed_after(client)
            assert took < 0.9, f'{took:.1f} s, {"" if passes else "no "}byte has passed'


def a_client_that_sent_and_leaves_is_noticed():
    """A client that sent bytes and resets its connection gives its reference back at once, while its server is tried again; and no server
    gets its bytes. So it does while its server hasn't accepted, though --timeout-connect gives that 10 seconds."""
    def leaves(proxy):
        client = proxy.connect()
        client.sendall(b'request')
        wait_for('it is tracked', lambda: proxy.rows().get('127.0.0.1', {}).get('conn_cur') == 1)
        time.sleep(0.2)
        reset(client)
        wait_for('its reference is given back', proxy.is_unused, 0.8)

    port = free_port()
    with Proxy(port, [TABLE, TRACK], '--retries', '1000', threads=1) as proxy:
        leaves(proxy)
        with socket.create_server(('127.0.0.1', port)) as listener:
            listener.settimeout(1.5)
            with contextlib.suppress(TimeoutError):
                listener.accept()
                raise AssertionError('its server is connected to')
    with socket.socket() as listener, contextlib.ExitStack() as fillers:
        listener.bind(('127.0.0.1', 0))
        listener.listen(0)
        for _ in range(4):
            filler = fillers.enter_context(socket.socket())
            filler.setblocking(False)
            filler.connect_ex(listener.getsockname())
        time.sleep(0.1)
        with Proxy(listener.getsockname()[1], [TABLE, TRACK], '--timeout-connect', '10s', threads=1) as proxy:
            leaves(proxy)


def a_server_that_accepts_and_resets_is_tried_once():
    """A server that accepts each of five clients and resets them before any byte has passed is connected to five times, however
    many tries are left. Each client is reset."""
    connects, seen = [], []
    with socket.create_server(('127.0.0.1', 0)) as listener:
        def serve():
            with contextlib.suppress(OSError):
                while True:
                    connects.append(listener.accept()[0])
                    time.sleep(0.05)
                    reset(connects[-1])
        threading.Thread(target=serve, daemon=True).start()
        with Proxy(listener.getsockname()[1], [TABLE, TRACK], '--retries', '3', threads=1) as proxy:
            for _ in range(5):
                with proxy.connect() as client:
                    seen.append(end_of(client))
            time.sleep(1.5)
            wait_for('the references are given back', proxy.is_unused)
        listener.shutdown(socket.SHUT_RDWR)
    assert len(connects) == 5, f'{len(connects)} connects of 5 clients'
    assert seen == ['reset'] * 5, seen


def end_of_one(proxy):
    """How a client's connection ends, which may be reset before it knows that it is connected."""
    client = arrive(proxy)
    if client is None:
        return 'reset'
    with client:
        return end_of(client)


def no_reference_outlives_its_end():
    """Once a client has heard of its reset or of its end its table shows no reference of it, however slow the thread that ended it is to
    go on: of those that are rejected, of those whose server refuses and of one that was silent for too long."""
    with tempfile.TemporaryDirectory() as room:
        slow = {**os.environ, 'LD_PRELOAD': build_shim(room, 'slow_close'), 'SLOW_CLOSE': '300'}
        with Server(greets) as server, Proxy(server.port, [TABLE, TRACK, reject_above(1)], '--timeout-client', '3s', environment=slow) as proxy:
            with proxy.connect() as held:
                assert is_greeted(held)
                for _ in range(5):
                    assert end_of_one(proxy) == 'reset'
                    assert proxy.rows()['127.0.0.1']['use'] == 1, proxy.rows()
                assert end_of(held) == 'orderly'
                assert proxy.rows()['127.0.0.1']['use'] == 0, proxy.rows()
        with Proxy(free_port(), [TABLE, TRACK, reject_above(1)], environment=slow) as proxy:
            for _ in range(5):
                assert end_of_one(proxy) == 'orderly'
                assert proxy.rows()['127.0.0.1']['use'] == 0, proxy.rows()


def who_hears_of_an_end_may_come_again():
    """With a limit of one, a client whose server refuses connects again as soon as it hears of its end, and isn't rejected, however slow
    the thread that ended it is to go on: its reference was given back before."""
    with tempfile.TemporaryDirectory() as room:
        slow = {**os.environ, 'LD_PRELOAD': build_shim(room, 'slow_close'), 'SLOW_CLOSE': '50'}
        with Proxy(free_port(), [TABLE, TRACK, reject_above(1)], threads=4, environment=slow) as proxy:
            for turn in range(20):
                assert end_of_one(proxy) == 'orderly', f'client {turn} is rejected'


TRIALS = [a_server_that_comes_gets_all, it_is_tried_as_often_as_asked, a_client_that_leaves_is_noticed,
          a_server_that_accepted_is_not_tried_again, a_client_that_sent_and_leaves_is_noticed,
          a_server_that_accepts_and_resets_is_tried_once, no_reference_outlives_its_end, who_hears_of_an_end_may_come_again]
