"""Trials of what the program says while it runs: a line of counts, and what goes wrong, once a second for each cause."""
import re
import time

from lib.operations.watched import watched
from lib.proxy import PATIENCE, TABLE, TRACK, Proxy, Server, arrive, free_port, greets, is_greeted


def a_line_comes_each_time():
    """--report writes a line of counts each TIME, and one at the end."""
    with watched('--report', '1s') as proxy:
        with proxy.connect() as client:
            assert is_greeted(client)
            time.sleep(2.5)
        assert proxy.told('shutdown frontend www').strip() == ''
        status, _, said = proxy.ended()
        lines = [line for line in said.splitlines() if ' accepted, ' in line]
        assert status == 0 and 3 <= len(lines) <= 5, said
        assert all(re.search(r'\b1 accepted\b', line) for line in lines[1:]), lines


def nothing_is_said_unless_asked():
    """Without --report and --log-rejected, what is rejected is told nowhere."""
    with watched(limit=0) as proxy:
        for _ in range(5):
            assert not is_greeted(arrive(proxy))
        time.sleep(1.5)
        assert not [line for line in proxy.killed() if 'rejected' in line]


def rejections_are_said_once_a_second():
    """With --log-rejected a line a second at most says how many were rejected, and where the last came from, as a key."""
    with watched('--log-rejected', limit=0) as proxy:
        began, count = time.monotonic(), 0
        while time.monotonic() < began + 3.2:
            count += not is_greeted(arrive(proxy))
            time.sleep(0.01)
        time.sleep(2.5)
        seconds = time.monotonic() - began
        lines = [line for line in proxy.killed() if 'rejected' in line and 'connections:' not in line]
        told = [int(re.search(r'(\d+)', re.sub(r'<\d>', '', line))[1]) for line in lines]
        assert 2 <= len(lines) <= seconds + 1 and sum(told) == count, (lines, count, seconds)
        assert all(re.search(r'; last 127\.0\.0\.1$', line) for line in lines), lines


def a_server_that_refuses_is_said():
    """A server that isn't there is said with how often, whose connection was the last, and why; a line a second at most."""
    with Proxy(free_port(), [TABLE, TRACK], '--report', '10m') as proxy:
        for _ in range(20):
            with proxy.connect() as client:
                client.settimeout(PATIENCE)
                client.recv(1)
        time.sleep(3)
        lines = [line for line in proxy.killed() if 'refused' in line]
        told = [int(re.search(r'(\d+)', re.sub(r'<\d>', '', line))[1]) for line in lines]
        assert 1 <= len(lines) <= 6 and sum(told) == 20, lines
        assert all(re.search(r'; last 127\.0\.0\.1:\d+: Connection refused', line) for line in lines), lines


def descriptors_that_run_out_are_said():
    """Where no descriptor is left, a line a second at most says how often no client could be accepted, and the system's words."""
    with Server(greets) as server, Proxy(server.port, [TABLE, TRACK], '--report', '10m', threads=2, descriptors=40) as proxy:
        held = [proxy.connect() for _ in range(60)]
        time.sleep(2.5)
        for client in held:
            client.close()
        lines = [line for line in proxy.killed() if 'for want of descriptors' in line and ' accepted, ' not in line]
        assert 1 <= len(lines) <= 4, lines
        assert all(re.search(r'\d+ not accepted for want of descriptors; last Too many open files', line) for line in lines), lines


TRIALS = [a_line_comes_each_time, nothing_is_said_unless_asked, rejections_are_said_once_a_second, a_server_that_refuses_is_said,
          descriptors_that_run_out_are_said]
