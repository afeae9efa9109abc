"""Trials of the stats socket: that it speaks as HAProxy's does, by itself and to the tools that ask HAProxy's."""
import contextlib
import fcntl
import os
import pty
import re
import select
import signal
import socket
import struct
import subprocess
import termios
import threading
import time

from lib.operations.watched import watched
from lib.proxy import PATIENCE, arrive, free_port, is_greeted, read_all, wait_for
from lib.trials import wants

PROMPT = b'> '


def a_line_is_answered_and_closed():
    """One line of commands, parted by ';', is answered, and then the socket ends, whether or not the client has ended first."""
    with watched() as proxy:
        table = '# table: www, type: ip, size:1024, used:0\n\n'
        assert proxy.told('show table') == table
        assert proxy.told('show table;show table') == 2 * table
        assert proxy.told('set table www key 10.0.0.1 data.conn_cnt 7;show table www').count('conn_cnt=7') == 1
        assert proxy.told('show errors') == '\n'
        assert proxy.told('').startswith('Unknown command.')


def lines_that_come_together_are_answered():
    """All lines that come together are answered, also where they fill a read, and where the last of them comes in two pieces; `quit` ends
    them, and a line that comes later is of no more interest."""
    table = b'# table: www, type: ip, size:1024, used:0\n\n'
    with watched() as proxy:
        for pieces, count in (([b'show table\nshow table\n'], 2), ([b'show table\nshow ta', b'ble\n'], 2), ([3_000 * b'show table\n'], 3_000),
                              ([b'show table\nquit\nshow table\n'], 1), ([b'show table;show table\n'], 2)):
            with proxy.stats_client() as stream:
                reader = threading.Thread(target=lambda: heard.append(read_all(stream)))
                heard = []
                reader.start()
                for piece in pieces:
                    stream.sendall(piece)
                    time.sleep(0.3)
                reader.join(PATIENCE)
            assert heard == [count * table], (pieces[0][:40], count, [len(one) for one in heard])


def a_prompt_keeps_it_open():
    """Behind `prompt` each line is answered with '> ' behind it, until `quit`."""
    with watched() as proxy, proxy.stats_client() as stream:
        stream.sendall(b'prompt\n')
        assert until_prompt(stream) == b'\n'
        for _ in range(3):
            stream.sendall(b'show table\n')
            assert until_prompt(stream).startswith(b'# table: www, type: ip, size:1024, used:')
        stream.sendall(b'quit\n')
        assert read_all(stream) == b''


def until_prompt(stream):
    """What comes before the next prompt."""
    heard = b''
    while not heard.endswith(PROMPT):
        some = stream.recv(65536)
        assert some, f'ended behind {heard!r}'
        heard += some
    return heard[:-len(PROMPT)]


def unknown_commands_are_told_what_there_is():
    """A command that isn't there is answered by HAProxy's words and by what there is, as is `help`."""
    with watched() as proxy:
        said = proxy.told('bogus')
        assert said.startswith('Unknown command'), said
        for text in (said, proxy.told('help')):
            for word in ('show info', 'show stat', 'show table', 'prompt', 'quit'):
                assert re.search(rf'^ +{word}', text, re.M), (word, text)
        assert proxy.told('shutdown frontend none').startswith('No such frontend.')


def counted_conns(proxy):
    """How many connections are open, and how many have come."""
    info = proxy.info()
    return info['CurrConns'], info['CumConns']


def info_and_stat_count():
    """`show info` and `show stat` say what was admitted, what was rejected and what is open, by HAProxy's names."""
    with watched(limit=2) as proxy:
        with proxy.connect() as first, proxy.connect() as second:
            assert is_greeted(first) and is_greeted(second)
            for _ in range(3):
                assert not is_greeted(arrive(proxy))
            # Each worker publishes what it counted at the end of its turn.
            wait_for('two are open, and five have come', lambda: counted_conns(proxy) == ('2', '5'))
            info, stat = proxy.info(), proxy.stat()
            assert info['Name'] == 'stickd' and info['Pid'] == str(proxy.program.pid), info
            assert info['CumConns'] == '5' and info['Maxconn'] == '10000' and info['Nbthread'] == '8', info
            assert info['Stopping'] == '0', info
            front, back = stat['FRONTEND'], stat['BACKEND']
            assert (front['pxname'], front['scur'], front['dcon'], front['status']) == ('www', '2', '3', 'OPEN'), front
            server = next(row for row in stat.values() if row['type'] == '2')
            assert (front['stot'], front['conn_tot'], back['stot'], server['stot']) == ('2', '5', '2', '2'), stat
        wait_for('none is open', lambda: proxy.info()['CurrConns'] == '0')
        assert int(proxy.stat()['FRONTEND']['bout']) == 2, proxy.stat()['FRONTEND']


def clients_beside_each_other_are_answered():
    """Clients that say nothing hold up no other, and are closed after 10 s."""
    with watched() as proxy, proxy.stats_client() as idle, proxy.stats_client() as other:
        began = time.monotonic()
        for _ in range(20):
            assert proxy.told('show table').startswith('# table: www')
        assert time.monotonic() - began < 5
        assert read_all(idle) == b'' and read_all(other) == b''
        assert 9 < time.monotonic() - began < 15


def answers_come_whole_to_many():
    """64 clients at once, each of whom gets a whole answer."""
    with watched() as proxy:
        heard = []
        threads = [threading.Thread(target=lambda: heard.append(proxy.told('show stat').count('\n'))) for _ in range(64)]
        for thread in threads:
            thread.start()
        for thread in threads:
            thread.join(PATIENCE)
        assert heard == 64 * [5], heard


def is_told_by(words):
    """Sees that a tool which doesn't end its side first is answered on the stats socket."""
    wants(words[0])
    with watched() as proxy:
        words = [word.format(path=proxy.stats) for word in words]
        done = subprocess.run(words, input=b'show info\n', stdout=subprocess.PIPE, timeout=PATIENCE, check=False)
    assert done.stdout.startswith(b'Name: stickd\n'), done


def socat_asks():
    """`show info` by socat."""
    is_told_by(['socat', 'stdio', 'unix-connect:{path}'])


def netcat_asks():
    """The same by nc."""
    is_told_by(['nc', '-U', '{path}'])


def hatop_shows_the_proxy():
    """hatop, on a terminal."""
    wants('hatop')
    with watched() as proxy:
        topped(proxy)


def the_exporter_of_prometheus_asks():
    """Prometheus's exporter for HAProxy."""
    wants('prometheus-haproxy-exporter')
    with watched() as proxy:
        exported(proxy)


def topped(proxy):
    """What hatop shows on a terminal, until it is told to go."""
    pid, terminal = pty.fork()
    if pid == 0:
        os.environ['TERM'] = 'xterm'
        os.execvp('hatop', ['hatop', '-s', proxy.stats])
    fcntl.ioctl(terminal, termios.TIOCSWINSZ, struct.pack('HHHH', 40, 140, 0, 0))
    shown = b''

    def is_shown():
        nonlocal shown
        if select.select([terminal], [], [], 0.1)[0]:
            with contextlib.suppress(OSError):
                shown += os.read(terminal, 65536)
        return all(word in shown for word in (b'stickd Version: ', b'www', b'FRONTEND', b'BACKEND'))
    try:
        wait_for('hatop shows the proxy', is_shown)
    finally:
        os.kill(pid, signal.SIGKILL)
        os.waitpid(pid, 0)
        os.close(terminal)


def exported(proxy):
    """What Prometheus' exporter makes of the stats socket."""
    port = free_port()
    words = ['prometheus-haproxy-exporter', f'--haproxy.scrape-uri=unix:{proxy.stats}', f'--web.listen-address=127.0.0.1:{port}']
    exporter = subprocess.Popen(words, stdout=subprocess.DEVNULL, stderr=subprocess.DEVNULL)
    try:
        def shown():
            try:
                with socket.create_connection(('127.0.0.1', port), PATIENCE) as stream:
                    stream.sendall(b'GET /metrics HTTP/1.0\r\n\r\n')
                    return read_all(stream).decode()
            except OSError:
                return ''
        wait_for('the exporter answers', shown)
        text = shown()
        assert 'haproxy_up 1' in text and 'haproxy_frontend_connections_total{frontend="www"} 0' in text, text
    finally:
        exporter.kill()
        exporter.communicate()


TRIALS = [a_line_is_answered_and_closed, lines_that_come_together_are_answered, a_prompt_keeps_it_open,
          unknown_commands_are_told_what_there_is, info_and_stat_count, clients_beside_each_other_are_answered,
          answers_come_whole_to_many, socat_asks,
          netcat_asks, hatop_shows_the_proxy, the_exporter_of_prometheus_asks]
