"""Trials of what Prometheus is told, and that all counts add up."""
import contextlib
import os
import re
import socket
import subprocess
import threading
import time

from lib.operations.watched import Watched, watched
from lib.proxy import PATIENCE, TABLE, TRACK, Proxy, Server, arrive, free_port, greets, is_greeted, read_all, reset, wait_for
from lib.trials import wants

ROUND = 25
# How long a scrape may take, in seconds.
SCRAPE = 5


def metrics_are_answered():
    """GET /metrics has the metrics; another path 404, another method 405, garbage 400."""
    with watched() as proxy:
        shown = proxy.metrics()
        assert shown['stickd_connections'] == 0 and shown['stickd_connections_accepted_total'] == 0, shown
        assert shown['stickd_table_entries{table="www"}'] == 0, shown
        assert proxy.fetched(b'GET / HTTP/1.1\r\nHost: here\r\n\r\n')[0] == 404
        assert proxy.fetched(b'POST /metrics HTTP/1.1\r\nHost: here\r\nContent-Length: 0\r\n\r\n')[0] == 405
        assert proxy.fetched(b'\x16\x03\x01 no HTTP\r\n\r\n')[0] == 400
        assert proxy.fetched(b'GET /metrics HTTP/1.0\r\n\r\n')[0] == 200
        assert proxy.fetched(b'GET /metrics?all HTTP/1.0\r\n\r\n')[0] in (200, 404)


def promtool_finds_no_fault():
    """What Prometheus's own tool says of the metrics."""
    wants('promtool')
    with watched() as proxy:
        body = proxy.fetched(b'GET /metrics HTTP/1.1\r\nHost: here\r\n\r\n')[2]
    done = subprocess.run(['promtool', 'check', 'metrics'], input=body.encode(), capture_output=True, timeout=PATIENCE, check=False)
    assert done.returncode == 0, done


def slow_scrapers_hold_up_nobody():
    """Scrapers that say nothing are closed, and others are answered meanwhile."""
    with watched() as proxy:
        idle = [socket.create_connection(('127.0.0.1', proxy.metrics_port), PATIENCE) for _ in range(7)]
        began = time.monotonic()
        for _ in range(10):
            proxy.metrics()
        assert time.monotonic() - began < 5
        for stream in idle:
            stream.settimeout(PATIENCE)
            assert read_all(stream) == b''
            stream.close()
        assert time.monotonic() - began < 15


def head_is_answered_without_a_body():
    """HEAD has the status and the fields that GET has, the length of the body among them, and no body."""
    with watched() as proxy:
        for path in ('/metrics', '/none'):
            got, asked = (proxy.fetched(f'{method} {path} HTTP/1.1\r\nHost: here\r\n\r\n'.encode()) for method in ('GET', 'HEAD'))
            assert asked[2] == '' and got[2] != '', (path, asked)
            assert asked[0] == got[0], (path, asked[0], got[0])
            lengths = [int(re.search(r'Content-Length: (\d+)', head)[1]) for head in (got[1], asked[1])]
            # Between the two the counts may have gone on by a digit.
            assert abs(lengths[0] - lengths[1]) < 20 and lengths[0] == len(got[2]), (path, lengths)


def dripped(port, pause):
    """How long a client is waited for that sends a byte of a request after each pause, in seconds."""
    with socket.create_connection(('127.0.0.1', port), PATIENCE) as stream:
        stream.settimeout(pause)
        began = time.monotonic()
        with contextlib.suppress(ConnectionError):
            stream.sendall(b'GET /metrics HTTP/1.1\r\nHost: here\r\nA: ')
            while time.monotonic() - began < 4 * SCRAPE:
                stream.sendall(b'a')
                with contextlib.suppress(TimeoutError):
                    if stream.recv(1) == b'':
                        break
        return time.monotonic() - began


def a_request_has_one_deadline():
    """However fast or slowly a request drips in, its client is closed 5 seconds after the accept, and not before."""
    with watched() as proxy:
        for pause in (0.01, 1.0):
            lasted = dripped(proxy.metrics_port, pause)
            assert SCRAPE - 0.5 < lasted < 2 * SCRAPE, (pause, lasted)


def bytes_count_while_they_pass():
    """Bytes of a connection are told while it is open, each once, and its end adds none of them again."""
    way_in, way_out = 'stickd_bytes_total{direction="in"}', 'stickd_bytes_total{direction="out"}'
    with watched() as proxy:
        with proxy.connect() as client:
            assert is_greeted(client)
            for passed in (100_000, 300_000):
                client.sendall(b'x' * (passed - int(proxy.metrics()[way_in])))
                wait_for(f'{passed} bytes are told', lambda: proxy.metrics()[way_in] == passed, within=2)
            assert proxy.metrics()[way_out] == 1 and proxy.metrics()['stickd_connections'] == 1
        wait_for('it has ended', lambda: proxy.metrics()['stickd_connections'] == 0)
        shown = proxy.metrics()
        assert (shown[way_in], shown[way_out]) == (300_000, 1), shown


def expired_entries_are_counted():
    """The expiries that are told are the entries that went at their time: not the rounds that looked for them, and none before."""
    held, gone = 'stickd_table_entries{table="www"}', 'stickd_expiries_total'
    with Server(greets) as server, Watched(server.port, ['stick-table type ip size 1k expire 4s store gpc0'], '--shards', '4') as proxy:
        proxy.fill(300)
        shown = proxy.metrics()
        assert (shown[held], shown[gone]) == (300, 0), shown
        # Whoever asks a shard has it remove what is over. So nobody asks one until housekeeping has.
        time.sleep(6.5)
        for _ in range(2):
            shown = proxy.metrics()
            assert (shown[held], shown[gone]) == (0, 300), shown
            time.sleep(2.5)


def unlike_proc(proxy):
    """Those of the process's metrics that /proc has otherwise, with what a scrape told."""
    body = proxy.fetched(b'GET /metrics HTTP/1.1\r\nHost: here\r\n\r\n')[2]
    told = {name: float(value) for name, value in re.findall(r'^(process_[a-z_]+) ([0-9.]+)$', body, re.M)}
    pid = proxy.program.pid
    with open(f'/proc/{pid}/stat', encoding='ascii') as file:
        fields = file.read().rpartition(')')[2].split()
    with open(f'/proc/{pid}/limits', encoding='ascii') as file:
        descriptors = int(re.search(r'^Max open files +(\d+)', file.read(), re.M)[1])
    ticks = (int(fields[11]) + int(fields[12])) / os.sysconf('SC_CLK_TCK')
    agrees = {
        'process_cpu_seconds_total': lambda value: 0 <= ticks - value < 2,
        'process_resident_memory_bytes': lambda value: abs(value - int(fields[21]) * os.sysconf('SC_PAGESIZE')) < 2**22,
        'process_virtual_memory_bytes': lambda value: abs(value - int(fields[20])) < 2**26,
        # The client of this scrape is gone by now.
        'process_open_fds': lambda value: abs(value - len(os.listdir(f'/proc/{pid}/fd'))) <= 2,
        'process_max_fds': lambda value: value == descriptors,
        'process_start_time_seconds': lambda value: 0 <= time.time() - value < 60,
    }
    return {name: told.get(name) for name, has in agrees.items() if name not in told or not has(told[name])}


def the_process_is_told():
    """What the system says of the process is told by the client libraries' names, and is what /proc says of it."""
    with watched() as proxy:
        # Threads that begin beside the first scrapes map memory: so until one of them is alike.
        for _ in range(50):
            unlike = unlike_proc(proxy)
            if not unlike:
                return
            time.sleep(0.2)
        raise AssertionError(unlike)


def an_open_place_is_warned_of():
    """A start warns of metrics that others can reach, and not of those at the machine's own address."""
    for address, is_warned in (('0.0.0.0', True), ('[::]', True), ('127.0.0.1', False), ('[::1]', False)):
        place = f'{address}:{free_port()}'
        with Server(greets) as server, Proxy(server.port, [TABLE, TRACK], '--metrics', place) as proxy:
            # Who is served comes after all that a start says.
            with proxy.connect() as client:
                assert is_greeted(client)
            proxy.program.terminate()
            said = proxy.program.communicate(timeout=PATIENCE)[1]
            assert (f'stickd: warning: Whoever can connect to {place} reads the metrics.' in said) == is_warned, (place, said)


def adds_up(shown):
    """Whether accepted connections are those admitted, those rejected and those that are being judged."""
    judged = shown['stickd_connections_accepted_total'] - shown['stickd_connections_admitted_total'] - shown['stickd_connections_rejected_total']
    return 0 <= judged <= 64


def rounds_of(proxy, number, mine):
    """Clients of one thread: half of them stay until they were greeted, one resets, and the last is one too many."""
    source = f'127.0.1.{number + 1}'
    for _ in range(ROUND):
        with proxy.connect(source) as first, proxy.connect(source) as second:
            mine['admitted'] += is_greeted(first) + is_greeted(second)
            mine['rejected'] += not is_greeted(arrive(proxy, source))
            reset(first)
        wait_for('they have gone', lambda: proxy.rows()[source]['use'] == 0, pause=0.005)


def counts_add_up():
    """Clients of many threads, with scrapes beside them: at each accepted = admitted + rejected + in hand, no count falls, and at
    the end all are exact."""
    with watched(limit=2, threads=4) as proxy:
        counts = [{'admitted': 0, 'rejected': 0} for _ in range(16)]
        threads = [threading.Thread(target=rounds_of, args=(proxy, number, counts[number])) for number in range(16)]
        for thread in threads:
            thread.start()
        last = proxy.metrics()
        while any(thread.is_alive() for thread in threads):
            shown = proxy.metrics()
            assert adds_up(shown), shown
            assert all(shown[name] >= last[name] for name in last if name.endswith('_total')), (last, shown)
            last = shown
        wait_for('all have ended', lambda: proxy.metrics()['stickd_connections'] == 0)
        shown = proxy.metrics()
        admitted, rejected = (sum(mine[fate] for mine in counts) for fate in ('admitted', 'rejected'))
        assert shown['stickd_connections_admitted_total'] == admitted == 2 * 16 * ROUND, (shown, admitted)
        assert shown['stickd_connections_rejected_total'] == rejected == 16 * ROUND, (shown, rejected)
        assert shown['stickd_connections_accepted_total'] == admitted + rejected, shown


TRIALS = [metrics_are_answered, promtool_finds_no_fault, slow_scrapers_hold_up_nobody, head_is_answered_without_a_body,
          a_request_has_one_deadline, bytes_count_while_they_pass, expired_entries_are_counted, the_process_is_told, an_open_place_is_warned_of,
          counts_add_up]
