"""Trials of stickd between proxies that tell each other of clients: HAProxy on either side of it and in its place, and nginx."""
import contextlib
import os
import shutil
import socket
import subprocess
import tempfile

from lib.headers import MAKERS, rows
from lib.operations.headed import HERE, TABLE, WORDS, as_key, begins, how_ends, is_quiet, keys, tells_as_it_should
from lib.operations.told import OPTIONS, as_address, ends_told, haproxy_of, line_of, read_exactly
from lib.operations.watched import Watched
from lib.proxy import PATIENCE, TRACK, FarServer, Proxy, free_port, read_all, wait_for
from lib.trials import NotMade, wants

PAYLOAD = b'hello'
# Sources and destinations that headers tell.
TOLD = [('203.0.113.9', '192.0.2.1'), ('2001:db8::9', '2001:db8::1'), ('::ffff:203.0.113.9', '::ffff:192.0.2.1')]
STREAM_MODULE = '/usr/lib/nginx/modules/ngx_stream_module.so'


@contextlib.contextmanager
def stickd_between(server, option):
    """Stickd that is told, and tells: its port, and how its table's keys of one connection are found."""
    with Watched(server, [TABLE, TRACK], *WORDS, option) as proxy:
        yield proxy.port, lambda: keys(proxy, conn_cur=1)


@contextlib.contextmanager
def haproxy_between(server, option):
    """HAProxy in its place."""
    with haproxy_of('accept-proxy', f'{server} {option.removeprefix("--")}') as (port, shown):
        yield port, lambda: haproxy_keys(shown)


def haproxy_keys(shown):
    """The keys of HAProxy's table that have one connection."""
    rows = [line.split() for line in shown().splitlines() if line.startswith('0x')]
    return {as_key(row[1].removeprefix('key=')) for row in rows if 'conn_cur=1' in row}


def header_without_ports(far, option):
    """The header that a server is told, byte for byte, but for the ports."""
    if option == '--send-proxy':
        return line_of(far).split()[:4]
    head = read_exactly(far, 16)
    return head + read_exactly(far, head[15])[:-4]


def seen_behind(server, places, find, option):
    """What is seen of a client that comes to each of these places of the proxy in front: its key in the middle, and the header and the bytes
    of the server."""
    seen = []
    for place in places:
        with socket.create_connection(place, PATIENCE) as client:
            client.sendall(PAYLOAD)
            far, _ = server.listener.accept()
            with far:
                far.settimeout(PATIENCE)
                header = header_without_ports(far, option)
                bytes_got = read_exactly(far, len(PAYLOAD))
                key = find()
                client.shutdown(socket.SHUT_WR)
                seen.append((key, header, bytes_got + read_all(far)))
        wait_for('it has ended', lambda: not find())
    return seen


def stickd_stands_where_haproxy_does():
    """HAProxy tells stickd of clients of IPv4, of IPv6 and of a listener of both, by either version, and stickd tells a server by either:
    its keys, the server's header and its bytes are those of HAProxy in stickd's place."""
    wants('haproxy')
    for told_by in OPTIONS:
        for tells_by in OPTIONS:
            seen = []
            for between in (haproxy_between, stickd_between):
                six, both = free_port(), free_port()
                with FarServer() as server, between(server.port, tells_by) as (middle, find):
                    front = f'{middle} {told_by.removeprefix("--")}'
                    with haproxy_of('', front, f'[::1]:{six}', f'[::]:{both} v4v6') as (four, _):
                        places = [('127.0.0.1', four), ('::1', six), ('127.0.0.1', both), ('::1', both)]
                        seen.append(seen_behind(server, places, find, tells_by))
            assert seen[0] == seen[1] and all(key for key, _, _ in seen[1]), (told_by, tells_by, seen)


def what_it_was_told_it_tells():
    """A client whose header stickd has taken is told to HAProxy with accept-proxy after it, by either version: HAProxy counts the client
    that the header tells, of IPv4, IPv6 and mapped addresses, and tells it on."""
    wants('haproxy')
    for option in OPTIONS:
        with FarServer() as server, haproxy_of('accept-proxy', f'{server.port} send-proxy-v2') as (port, shown):
            with Proxy(port, [TABLE, TRACK], *WORDS, option) as proxy:
                for make in MAKERS:
                    for ends in TOLD:
                        with begins(proxy, make(*ends) + PAYLOAD):
                            far, _ = server.listener.accept()
                            with far:
                                far.settimeout(PATIENCE)
                                told = [(as_address(address), port) for address, port in ends_told(far, '--send-proxy-v2')]
                                assert told == [(as_address(ends[0]), 1234), (as_address(ends[1]), 80)], (option, make.__name__, told)
                                assert read_exactly(far, len(PAYLOAD)) == PAYLOAD
                                assert haproxy_keys(shown) == {as_key(ends[0])} == keys(proxy, conn_cur=1), (option, make.__name__, shown())
                        wait_for('it has ended', lambda: not haproxy_keys(shown) and not keys(proxy, conn_cur=1))


def haproxy_makes_of_headers_what_is_said():
    """Each header of the table, sent to HAProxy: what it makes of it is what is made of it here, but where the table says otherwise."""
    wants('haproxy')
    with FarServer() as server, haproxy_of('accept-proxy', f'{server.port} send-proxy-v2') as (port, shown):
        for row in rows():
            with socket.create_connection(('127.0.0.1', port), PATIENCE) as client:
                client.sendall(row.header + (b'' if row.fate.word == 'waits' else PAYLOAD))
                if row.haproxys.word == 'wrong':
                    assert how_ends(client) == 'reset', row.name
                elif row.haproxys.word == 'waits':
                    assert is_quiet(client, 0.3), row.name
                else:
                    far, _ = server.listener.accept()
                    with far:
                        far.settimeout(PATIENCE)
                        told = ends_told(far, '--send-proxy-v2')
                        assert tells_as_it_should(row.haproxys, told, client), (row.name, told)
                        assert haproxy_keys(shown) == {as_key(told[0][0])}, (row.name, shown())
                        assert read_exactly(far, len(PAYLOAD)) == PAYLOAD, row.name
            wait_for('it has ended', lambda: not haproxy_keys(shown), pause=0.005)


def stickd_takes_what_haproxy_takes():
    """A health check of HAProxy with `check-send-proxy` begins by a header without ends, or with its own, and ends: stickd takes it, and
    counts the proxy's own address."""
    wants('haproxy')
    for option in ('send-proxy', 'send-proxy-v2'):
        with FarServer() as server, Watched(server.port, [TABLE, TRACK], *WORDS) as proxy:
            words = f'{proxy.port} {option} check check-send-proxy inter 200ms'
            with haproxy_of('', words):
                wait_for('two checks were taken', lambda: proxy.metrics()['stickd_headers_total'] >= 2)
            assert {str(key.ipv4_mapped) for key in keys(proxy)} == {'127.0.0.1'}, proxy.rows()
            assert proxy.metrics()['stickd_header_failures_total{cause="wrong"}'] == 0, proxy.metrics()


@contextlib.contextmanager
def nginx_of(*servers):
    """nginx at work with these servers of its stream module, where it is here."""
    if not shutil.which('nginx') or not os.path.exists(STREAM_MODULE):
        raise NotMade('nginx with its stream module is not here (the Debian packages nginx and libnginx-mod-stream)')
    with tempfile.TemporaryDirectory(prefix='stickd-') as room:
        file = os.path.join(room, 'nginx.conf')
        with open(file, 'w', encoding='utf-8') as text:
            text.write(f'load_module {STREAM_MODULE};\ndaemon off; master_process off; worker_processes 1; pid {room}/pid;\n'
                       f'error_log {room}/errors crit; events {{ }}\nstream {{\n' + '\n'.join(servers) + '\n}\n')
        program = subprocess.Popen([shutil.which('nginx'), '-p', room, '-c', file], stdin=subprocess.DEVNULL, stdout=subprocess.DEVNULL,
                                   stderr=subprocess.DEVNULL)
        try:
            wait_for('nginx is at work', lambda: os.path.exists(os.path.join(room, 'pid')))
            yield
        finally:
            program.kill()
            program.wait()


def nginx_stands_on_both_sides():
    """nginx tells stickd of a client, which tells nginx: what that has of the client, by either version, are the client's own ends. A client
    that comes to stickd with a header of its own is told to nginx as it tells."""
    for option in OPTIONS:
        front, last = free_port(), free_port()
        says = 'return "$proxy_protocol_addr $proxy_protocol_port $proxy_protocol_server_addr $proxy_protocol_server_port";'
        with Proxy(last, [TABLE, TRACK], '--accept-proxy', HERE, option, '--retries', '5') as proxy:
            ahead = f'server {{ listen 127.0.0.1:{front}; proxy_pass 127.0.0.1:{proxy.port}; proxy_protocol on; }}'
            with nginx_of(ahead, f'server {{ listen 127.0.0.1:{last} proxy_protocol; {says} }}'):
                with socket.create_connection(('127.0.0.1', front), PATIENCE, ('127.0.1.9', 0)) as client:
                    own = f'127.0.1.9 {client.getsockname()[1]} 127.0.0.1 {front}'
                    assert read_all(client).decode() == own, option
                for make in MAKERS:
                    with begins(proxy, make('2001:db8::9', '2001:db8::1')) as client:
                        assert read_all(client) == b'2001:db8::9 1234 2001:db8::1 80', (option, make.__name__)


TRIALS = [stickd_stands_where_haproxy_does, what_it_was_told_it_tells, haproxy_makes_of_headers_what_is_said,
          stickd_takes_what_haproxy_takes, nginx_stands_on_both_sides]
