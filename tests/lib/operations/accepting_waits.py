"""Trials of clients whose header isn't whole: how long they are waited for, what they hold meanwhile, how they are told of; and of those
who may tell none (--proxies-only)."""
import contextlib
import os
import re
import socket
import time

from lib.calls import ADMITTED, LOOK, REJECTED, ended_after
from lib.edges.limits import greeted_of
from lib.headers import MAKERS, SIGNATURE, line
from lib.operations.headed import TABLE, WORDS, accepting, are_counted, as_key, begins, counts, how_ends, is_quiet, is_reset_unread, keys
from lib.operations.watched import Watched
from lib.proxy import PATIENCE, TRACK, FarServer, Proxy, Server, closed_after, echoes, end_of, greets, is_greeted, reject_above, reset, wait_for

CLIENT = '203.0.113.9'
HEADER = line(CLIENT)
HALF = HEADER[:20]
# By how much a time may be passed: threads look for who is late ten times a second, and the machine may be busy.
LATE = 2


def reset_after(client, began):
    """The seconds from then on until a client is reset."""
    assert how_ends(client) == 'reset'
    return time.monotonic() - began


def half_a_header_has_its_time():
    """A client whose header doesn't go on is reset in its time, which is told as late. Its place is free then: with one alone the next
    client, who waits for it, is served."""
    with accepting('--timeout-header', '500ms', '--connections', '1', threads=1) as proxy:
        for half in (HALF, SIGNATURE[:5], b''):
            began = time.monotonic()
            client, following = begins(proxy, half), begins(proxy, HEADER)
            took = reset_after(client, began)
            assert 0.45 < took < 0.5 + LATE, (half, took)
            assert is_greeted(following), half
            following.close()
            client.close()
        are_counted(proxy, accepted=6, admitted=3, rejected=3, headers=3, late=3)
        assert keys(proxy) == {as_key(CLIENT)}, proxy.rows()


def a_header_has_one_time():
    """Bytes that drip in don't put it off: the time is that from the accept to the header's end."""
    with accepting('--timeout-header', '1s') as proxy:
        began = time.monotonic()
        with begins(proxy, b'') as client, contextlib.suppress(ConnectionError):
            for byte in HEADER[:-1]:
                client.send(bytes([byte]))
                time.sleep(0.1)
        took = time.monotonic() - began
        assert 0.95 < took < 1 + LATE, took
        are_counted(proxy, accepted=1, rejected=1, late=1)


def five_seconds_unless_told():
    """Without --timeout-header it is 5 s."""
    with accepting() as proxy:
        began = time.monotonic()
        with begins(proxy, HALF) as client:
            took = reset_after(client, began)
            assert 4.9 < took < 5 + LATE, took


def a_stall_resets_nobody_whose_header_came():
    """The program stands still for 2 s, from half a second before a header's time on. Meanwhile the rest of it comes: its client is served.
    One for which nothing comes is reset, after the stall."""
    with accepting('--timeout-header', '2s', threads=1) as proxy:
        comes, silent = begins(proxy, HALF), begins(proxy, HALF)
        wait_for('both are there', lambda: counts(proxy)['accepted'] == 2)
        time.sleep(1.4)
        with proxy.stopped():
            time.sleep(1)
            comes.sendall(HEADER[len(HALF):])
            time.sleep(1)
        assert is_greeted(comes)
        assert how_ends(silent) == 'reset'
        for client in (comes, silent):
            client.close()
        are_counted(proxy, accepted=2, admitted=1, rejected=1, headers=1, late=1)


def each_time_is_of_its_own():
    """A client that waits isn't a silent one: it may for longer than --timeout-client, which begins once it is judged. And one that is served
    stays for longer than --timeout-header."""
    with accepting('--timeout-header', '1m', '--timeout-client', '500ms') as proxy, begins(proxy, HALF) as client:
        assert is_quiet(client, 1.5)
        client.sendall(HEADER[len(HALF):])
        assert is_greeted(client)
        assert 0.4 < closed_after(client) < 0.5 + LATE
        are_counted(proxy, accepted=1, admitted=1, headers=1)
    with accepting('--timeout-header', '500ms', serve=echoes) as proxy, begins(proxy, HEADER + b'stays') as client:
        assert is_quiet(client, 1.5)
        client.shutdown(socket.SHUT_WR)
        assert client.recv(6) == b'stays'
        are_counted(proxy, accepted=1, admitted=1, headers=1, **{'in': 5})


def who_waits_holds_nothing():
    """While 50 wait for the last byte of their header, the table has no entry for them, and that of the client that they tell counts those
    alone who are there. They leave nothing, descriptors neither."""
    with accepting('--timeout-header', '1m') as proxy:
        waiting = [begins(proxy, HEADER[:-1]) for _ in range(50)]
        wait_for('all are accepted', lambda: counts(proxy)['accepted'] == 50)
        # Two of each that waits, its own and one for its server, are given back.
        left = len(os.listdir(f'/proc/{proxy.program.pid}/fd')) - 2 * 50
        assert proxy.rows() == {} and 'used:0' in proxy.command('show table www\n'), proxy.rows()
        assert [counts(proxy)[name] for name in ('admitted', 'rejected', 'headers', 'in')] == [0] * 4, counts(proxy)
        with begins(proxy, HEADER) as client:
            assert is_greeted(client)
            row, = proxy.rows().values()
            assert (row['use'], row['conn_cur'], row['conn_cnt']) == (1, 1, 1), row
        for number, client in enumerate(waiting):
            if number % 5 == 0:
                client.sendall(HEADER[-1:])
                assert is_greeted(client), number
            (reset if number % 2 else socket.socket.close)(client)
        are_counted(proxy, accepted=51, admitted=11, rejected=40, headers=11, ended=40)
        row, = proxy.rows().values()
        assert (row['use'], row['conn_cur'], row['conn_cnt']) == (0, 0, 11), row
        # Each of its eight threads may keep a socket for its next client's server.
        wait_for('descriptors are given back', lambda: len(os.listdir(f'/proc/{proxy.program.pid}/fd')) <= left + 8)


# How clients that wait end: each frees the place for the next.
ENDINGS = {
    'close': socket.socket.close,
    'reset': reset,
    'end': lambda client: client.shutdown(socket.SHUT_WR),
    'wrong': lambda client: client.sendall(b'\r\n'),
    'late': lambda client: None,
    'whole': lambda client: (client.sendall(HEADER[len(HALF):]), is_greeted(client), client.close()),
}


def are_over(shown, count):
    """Whether so many clients were accepted, each of which was admitted or rejected by now."""
    return shown['accepted'] == shown['admitted'] + shown['rejected'] == count


def who_waits_has_a_place():
    """As many clients as there may be wait, on one thread and on four: the next isn't accepted before one of them has ended, and is served
    then, however that ends. Those who were never served are gone at last."""
    for threads in (1, 4):
        for name, ends in ENDINGS.items():
            own = ['--timeout-header', '2s' if name == 'late' else '1m']
            with accepting(*own, '--connections', '3', threads=threads) as proxy:
                waiting = [begins(proxy, HALF) for _ in range(3)]
                wait_for('all are accepted', lambda: counts(proxy)['accepted'] == 3)
                following = begins(proxy, HEADER)
                assert is_quiet(following, 0.2) and counts(proxy)['accepted'] == 3, (threads, name)
                ends(waiting[0])
                assert is_greeted(following), (threads, name)
                for client in (*waiting, following):
                    client.close()
                wait_for(f'all are gone, {name}', lambda: are_over(counts(proxy), 4))


def who_waited_has_a_descriptor():
    """With few descriptors 60 clients that wait with half a header are served once it is whole, as others leave: one that was accepted has
    a descriptor for its server, and none is closed for want of one."""
    words = [*WORDS, '--timeout-header', '1m']
    for descriptors in (40, 47):
        with Server(greets) as server, Proxy(server.port, [TABLE, TRACK], *words, threads=2, descriptors=descriptors) as proxy:
            waiting = [begins(proxy, HALF) for _ in range(60)]
            time.sleep(0.3)
            for client in waiting:
                client.sendall(HEADER[len(HALF):])
            while waiting:
                greeted = greeted_of(waiting)
                assert greeted, f'{descriptors} descriptors: {len(waiting)} are never served'
                waiting = [client for client in waiting if client not in greeted]
                for client in greeted:
                    client.close()


def a_check_of_the_port_is_no_client():
    """Who connects and closes or resets at once, as checks of a port do, is counted as ended, and nothing else: no entry, and the server
    hears nothing."""
    with FarServer() as server, Watched(server.port, [TABLE, TRACK], *WORDS) as proxy:
        for ends in (socket.socket.close, reset) * 10:
            ends(proxy.connect())
        are_counted(proxy, accepted=20, rejected=20, ended=20)
        assert proxy.rows() == {}, proxy.rows()
        server.listener.settimeout(0.2)
        try:
            server.listener.accept()
            raise AssertionError('the server is connected to')
        except TimeoutError:
            pass


def an_end_before_the_header_is_told_as_one():
    """A client that ends its direction, or is reset, after half a header, is reset at once and counted as ended; one that ends it after a
    whole header is served."""
    with accepting('--timeout-header', '1m') as proxy:
        for half in (b'', HALF, HEADER[:-1], SIGNATURE):
            with begins(proxy, half) as client:
                client.shutdown(socket.SHUT_WR)
                assert end_of(client) == 'reset', half
            reset(begins(proxy, half))
        with begins(proxy, HEADER) as client:
            client.shutdown(socket.SHUT_WR)
            assert is_greeted(client)
        are_counted(proxy, accepted=9, admitted=1, rejected=8, headers=1, ended=8)
        assert keys(proxy) == {as_key(CLIENT)}, proxy.rows()


def only_proxies_are_heard():
    """With --proxies-only a client of another network is reset, whatever it sends or doesn't send: the server isn't connected to, and the
    table has no entry. It is told as rejected where that is asked. A proxy is served as before."""
    with Server(greets) as server:
        words = ['--accept-proxy', '127.0.1.0/24,127.0.2.7', '--proxies-only', '--log-rejected']
        with Watched(server.port, [TABLE, TRACK], *words) as proxy:
            for sent in (b'', b'GET / HTTP/1.0\r\n\r\n', HEADER):
                for source in ('127.0.0.1', '127.0.2.6'):
                    assert is_reset_unread(proxy, sent, source), (sent, source)
            are_counted(proxy, accepted=6, rejected=6, untrusted=6)
            assert proxy.rows() == {}, proxy.rows()
            for source in ('127.0.1.9', '127.0.2.7'):
                with begins(proxy, HEADER, source) as client:
                    assert is_greeted(client), source
            are_counted(proxy, accepted=8, admitted=2, rejected=6, headers=2, untrusted=6)
            time.sleep(1.5)
            lines = [text for text in proxy.killed() if 'reset as no trusted proxy' in text]
            assert sum(told_number(text) for text in lines) == 6, lines
            assert all(re.search(r'; last 127\.0\.\d\.\d(:\d+)?$', text) for text in lines), lines


def told_number(text):
    """How many a line tells."""
    return int(re.search(r'(\d+) (?:reset|ended)', text)[1])


# What clients of a proxy do, and how that is told.
CAUSES = {
    'reset as they began by no header': b'GET / HTTP/1.0\r\n\r\n',
    'ended before their header was whole': None,
    'reset as their header was late': HALF,
}


def causes_are_said_once_a_second():
    """With --report a line says how often a header failed, for what cause, and which proxy's was the last: one a second at most. It is the
    proxy's own address, as the client's isn't known."""
    with accepting('--report', '10m', '--timeout-header', '300ms') as proxy:
        for sent in CAUSES.values():
            for _ in range(5):
                with begins(proxy, sent or b'', '127.0.1.9') as client:
                    if sent is not None:
                        assert how_ends(client) == 'reset', sent
        are_counted(proxy, accepted=15, rejected=15, wrong=5, ended=5, late=5)
        time.sleep(2.5)
        said = proxy.killed()
        for words in CAUSES:
            lines = [text for text in said if words in text and ' accepted, ' not in text]
            assert 1 <= len(lines) <= 6 and sum(map(told_number, lines)) == 5, (words, said)
            assert all(re.search(r'; last 127\.0\.1\.9(:\d+)?$', text) for text in lines), lines


def who_is_rejected_is_named_as_told():
    """With --log-rejected the last client that the rules rejected is named as its header tells, or as its proxy where that tells none."""
    rows = [(MAKERS[0](CLIENT), CLIENT), (MAKERS[1]('2001:db8::9', '2001:db8::1'), '2001:db8::9'), (b'PROXY UNKNOWN\r\n', '127.0.1.9')]
    for sent, name in rows:
        with accepting('--log-rejected', rules=[reject_above(0)]) as proxy:
            with begins(proxy, sent, '127.0.1.9') as client:
                assert how_ends(client) == 'reset', name
            are_counted(proxy, accepted=1, rejected=1, headers=1)
            time.sleep(1.5)
            lines = [text for text in proxy.killed() if ' rejected; ' in text]
            assert len(lines) == 1 and lines[0].endswith(f'1 rejected; last {name}'), (name, lines)


def a_drain_hears_headers():
    """In a drain those whose header comes are judged, and served or rejected. Who ends is gone, and who waits on is closed as the drain
    ends. Then each accepted client was admitted or rejected, and no reference is out."""
    with FarServer() as server:
        words = ['--drain', '4s', '--timeout-header', '1m', '--report', '1h']
        with Watched(server.port, [TABLE, TRACK, reject_above(1)], *WORDS, *words) as proxy:
            served, rejected, ends, waits = [begins(proxy, HALF) for _ in range(4)]
            wait_for('all are accepted', lambda: counts(proxy)['accepted'] == 4)
            began = time.monotonic()
            assert proxy.told('shutdown frontend www').strip() == ''
            wait_for('it stops', lambda: proxy.info()['Stopping'] == '1')
            served.sendall(HEADER[len(HALF):] + b'still')
            far, _ = server.listener.accept()
            far.settimeout(PATIENCE)
            assert far.recv(5) == b'still'
            rejected.sendall(HEADER[len(HALF):])
            assert how_ends(rejected) == 'reset'
            ends.close()
            served.close()
            assert far.recv(1) == b''
            far.close()
            assert proxy.program.poll() is None and is_quiet(waits, 0.2), 'it has ended before who waits'
            assert how_ends(waits) != 'bytes'
            took = time.monotonic() - began
            assert 3.5 < took < 4 + 2 * LATE, took
            ends_settled(proxy, 1, 3)


def ends_settled(proxy, admitted, rejected):
    """That the program ends with no reference out, and tells of so many clients."""
    status, written, said = proxy.ended()
    assert status == 0 and re.fullmatch(r'settled www: \d+ calls, 0 references\n', written), (status, written, said)
    assert f'connections: {admitted} admitted, {rejected} rejected, 0 failed' in said, said
    told = re.findall(r'(\d+) accepted, (\d+) admitted, (\d+) rejected', said)[-1]
    assert tuple(map(int, told)) == (admitted + rejected, admitted, rejected), said


def it_settles_after_so_many():
    """With --stop-after clients count whose header failed, and the table settles: they made no call of it, as it had of those that were
    judged alone."""
    words = ['--accept-proxy', '127.0.1.0/24', '--proxies-only', '--timeout-header', '300ms', '--stop-after', '8']
    with Server(greets) as server, Proxy(server.port, [TABLE, TRACK, reject_above(1)], *words) as proxy:
        with begins(proxy, MAKERS[0](CLIENT), '127.0.1.1') as first, begins(proxy, MAKERS[1]('2001:db8::9', '2001:db8::1'), '127.0.1.1') as second:
            assert is_greeted(first) and is_greeted(second)
            for sent, source in ((HEADER, '127.0.1.1'), (b'GET', '127.0.1.1'), (HALF, '127.0.1.2'), (b'', '127.0.1.3')):
                with begins(proxy, sent, source) as client:
                    assert how_ends(client) == 'reset', (sent, source)
            assert is_reset_unread(proxy, HEADER, '127.0.0.1')
            begins(proxy, HALF, '127.0.1.4').close()
        ended_after(proxy, 2 * ADMITTED + REJECTED + 3 * LOOK)


def a_place_is_free_after_each_reset():
    """With one place, a client that is reset for what it sends and one that is served come in turn, again and again."""
    with accepting('--connections', '1', threads=2) as proxy:
        for _ in range(50):
            with begins(proxy, b'GET') as client:
                assert how_ends(client) == 'reset'
            with begins(proxy, HEADER) as client:
                assert is_greeted(client)
        are_counted(proxy, accepted=100, admitted=50, rejected=50, headers=50, wrong=50)


TRIALS = [half_a_header_has_its_time, a_header_has_one_time, five_seconds_unless_told, a_stall_resets_nobody_whose_header_came,
          each_time_is_of_its_own, who_waits_holds_nothing, who_waits_has_a_place, who_waited_has_a_descriptor,
          a_check_of_the_port_is_no_client, an_end_before_the_header_is_told_as_one, only_proxies_are_heard, causes_are_said_once_a_second,
          who_is_rejected_is_named_as_told, a_drain_hears_headers, it_settles_after_so_many, a_place_is_free_after_each_reset]
