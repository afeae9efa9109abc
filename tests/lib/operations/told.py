"""Trials of what a server is told of its clients, by the PROXY protocol (--send-proxy, --send-proxy-v2)."""
import contextlib
import ipaddress
import os
import socket
import struct
import subprocess
import tempfile
import threading
import time

from lib.headers import SIGNATURE
from lib.operations.watched import Watched, watched
from lib.proxy import PATIENCE, TABLE, TRACK, FarServer, Proxy, Server, free_port, is_greeted, read_all, wait_for
from lib.trials import wants

OPTIONS = ('--send-proxy', '--send-proxy-v2')
# How long the addresses, and all ends, of the kinds of version 2 are (section 2.2 of the standard).
KINDS = {0x11: (4, 12), 0x21: (16, 36)}


def read_exactly(stream, count):
    """So many bytes of a stream."""
    some = b''
    while len(some) < count:
        more = stream.recv(count - len(some))
        assert more, f'it ended after {some!r}'
        some += more
    return some


def line_of(stream):
    """A line, up to its CR LF."""
    line = b''
    while not line.endswith(b'\r\n'):
        line += read_exactly(stream, 1)
    return line


def ends_told(stream, option):
    """The ends that a header tells, which is read as the standard has it, and nothing after it."""
    if option == '--send-proxy':
        word, family, source, destination, *ports = line_of(stream).decode().removesuffix('\r\n').split(' ')
        assert word == 'PROXY' and family in ('TCP4', 'TCP6'), (word, family)
        return (source, int(ports[0])), (destination, int(ports[1]))
    assert read_exactly(stream, 12) == SIGNATURE
    command, kind, length = struct.unpack('>BBH', read_exactly(stream, 4))
    size, wanted = KINDS[kind]
    assert (command, length) == (0x21, wanted), (command, kind, length)
    block = read_exactly(stream, length)
    source, destination = (str(ipaddress.ip_address(block[at:at + size])) for at in (0, size))
    ports = struct.unpack('>HH', block[2 * size:])
    return (source, ports[0]), (destination, ports[1])


def as_address(text):
    """An address that can be compared, however it is printed."""
    return ipaddress.ip_address(text)


def are_ends_of(told, client):
    """Whether these are the ends of a client's connection, as the client knows them. One of both families is told by IPv6."""
    for (address, port), known in zip(told, (client.getsockname(), client.getpeername())):
        here = as_address(address)
        mapped = getattr(here, 'ipv4_mapped', None)
        if port != known[1] or as_address(known[0]) not in (here, mapped):
            return False
    return True


def a_server_is_told_of_its_client():
    """Each server's connection begins by a header with both ends of its client's, over IPv4, IPv6 and a listener of both families; then
    come the client's bytes. The header is none of the bytes that are counted."""
    for option in OPTIONS:
        both = free_port()
        with FarServer() as server, Watched(server.port, [TABLE, TRACK], '--bind', f'[::1]:{both}', option) as proxy:
            for place in (('127.0.0.1', proxy.port), ('::1', both)):
                with socket.create_connection(place, PATIENCE) as client:
                    client.sendall(b'first')
                    far, _ = server.listener.accept()
                    with far:
                        far.settimeout(PATIENCE)
                        told = ends_told(far, option)
                        assert are_ends_of(told, client), (option, place, told, client)
                        client.sendall(b' second')
                        client.shutdown(socket.SHUT_WR)
                        assert read_all(far) == b'first second', option
            wait_for('both have ended', lambda: proxy.metrics()['stickd_connections'] == 0)
            assert proxy.metrics()['stickd_bytes_total{direction="in"}'] == 2 * len(b'first second'), option


def a_mapped_address_stays_one_of_ipv6():
    """A client of IPv4 at a listener of both families is told by version 1 as HAProxy tells it: by IPv6 addresses, in mixed form."""
    both = free_port()
    with FarServer() as server, Proxy(server.port, [TABLE, TRACK], '--bind', f'[::]:{both}', '--send-proxy') as proxy:
        del proxy
        with socket.create_connection(('127.0.0.1', both), PATIENCE) as client:
            far, _ = server.listener.accept()
            with far:
                far.settimeout(PATIENCE)
                port = client.getsockname()[1]
                assert line_of(far) == f'PROXY TCP6 ::ffff:127.0.0.1 ::ffff:127.0.0.1 {port} {both}\r\n'.encode()


def told_and_greeted(option, heard):
    """A server that waits for its header, then greets, and notes what it heard."""
    def serve(client):
        heard.append(ends_told(client, option))
        client.sendall(b'+')
        heard.append(read_all(client))
    return serve


def a_server_that_speaks_first_is_told_first():
    """A client that says nothing is told all the same: a server that waits for its header greets it."""
    for option in OPTIONS:
        heard = []
        with Server(told_and_greeted(option, heard)) as server, Proxy(server.port, [TABLE, TRACK], option) as proxy:
            with proxy.connect() as client:
                assert is_greeted(client), option
                assert are_ends_of(heard[0], client), (option, heard)
            wait_for('its end is heard', lambda: len(heard) == 2)
            assert heard[1] == b'', (option, heard)


def a_server_that_comes_late_is_told_once():
    """A server that refuses twice and then is there gets one header, and then what the client sent meanwhile."""
    for option in OPTIONS:
        port = free_port()
        with Proxy(port, [TABLE, TRACK], '--retries', '5', option, threads=1) as proxy, proxy.connect() as client:
            client.sendall(b'waits')
            time.sleep(1.2)
            with socket.create_server(('127.0.0.1', port)) as listener:
                listener.settimeout(PATIENCE)
                far, _ = listener.accept()
                with far:
                    far.settimeout(PATIENCE)
                    heard = ends_told(far, option)
                    assert are_ends_of(heard, client), (option, heard)
                    client.shutdown(socket.SHUT_WR)
                    assert read_all(far) == b'waits', option


def much_follows_a_header():
    """3,000,000 bytes after a header come whole, to a server that reads slowly at first."""
    sent = os.urandom(3_000_000)
    for option in OPTIONS:
        with FarServer() as server, Proxy(server.port, [TABLE, TRACK], option) as proxy, proxy.connect() as client:
            sender = threading.Thread(target=lambda: (client.sendall(sent), client.shutdown(socket.SHUT_WR)))
            sender.start()
            far, _ = server.listener.accept()
            with far:
                far.settimeout(PATIENCE)
                time.sleep(0.2)
                assert are_ends_of(ends_told(far, option), client), option
                assert read_all(far) == sent, option
            sender.join()


def both_versions_are_one_too_many():
    """Both options together are refused, with status 2."""
    with watched() as proxy:
        words = [proxy.program.args[0], *proxy.words, *OPTIONS]
        done = subprocess.run(words, stdin=subprocess.DEVNULL, capture_output=True, text=True, timeout=PATIENCE, check=False)
        assert done.returncode == 2 and 'cannot be used with' in done.stderr, done


@contextlib.contextmanager
def haproxy_of(frontend, server, *others):
    """HAProxy at work on a port with these words at its bind, and at these other addresses, before a server with these words; its port,
    and how its table is shown."""
    port = free_port()
    with tempfile.TemporaryDirectory(prefix='stickd-') as room:
        stats, file = os.path.join(room, 'stats'), os.path.join(room, 'haproxy.cfg')
        lines = [f'global\n    stats socket {stats} mode 600 level admin', 'defaults\n    mode tcp\n    timeout connect 5s',
                 '    timeout client 20s\n    timeout server 20s', f'frontend there\n    bind 127.0.0.1:{port} {frontend}',
                 *(f'    bind {other} {frontend}' for other in others),
                 '    stick-table type ipv6 size 100 expire 1m store conn_cur', '    tcp-request session track-sc0 src',
                 f'    default_backend far\nbackend far\n    server one 127.0.0.1:{server}']
        with open(file, 'w', encoding='utf-8') as text:
            text.write('\n'.join(lines) + '\n')
        program = subprocess.Popen(['haproxy', '-db', '-f', file], stdin=subprocess.DEVNULL, stdout=subprocess.DEVNULL, stderr=subprocess.DEVNULL)
        try:
            wait_for('HAProxy has its socket', lambda: os.path.exists(stats))
            yield port, lambda: shown_by(stats)
        finally:
            program.kill()
            program.wait()


def shown_by(stats):
    """HAProxy's table, as its stats socket shows it."""
    with socket.socket(socket.AF_UNIX) as stream:
        stream.settimeout(PATIENCE)
        stream.connect(stats)
        stream.sendall(b'show table there\n')
        return read_all(stream).decode()


def haproxy_believes_it():
    """HAProxy with accept-proxy after stickd counts stickd's client as its own, by both versions; and the bytes come through."""
    wants('haproxy')
    for option in OPTIONS:
        with FarServer() as server, haproxy_of('accept-proxy', server.port) as (port, shown), Proxy(port, [TABLE, TRACK], option) as proxy:
            with proxy.connect('127.0.1.9') as client:
                client.sendall(b'hello')
                far, _ = server.listener.accept()
                with far:
                    far.settimeout(PATIENCE)
                    assert read_exactly(far, 5) == b'hello', option
                    assert 'key=::ffff:127.0.1.9 use=1' in shown(), (option, shown())


def haproxy_tells_the_same():
    """A client's header is that which HAProxy writes for it, byte for byte, but for the ports."""
    wants('haproxy')
    for option in OPTIONS:
        heads = []
        with FarServer() as server:
            with haproxy_of('', f'{server.port} {option.removeprefix("--")}') as (port, _), Proxy(server.port, [TABLE, TRACK], option) as proxy:
                for place in (port, proxy.port):
                    with socket.create_connection(('127.0.0.1', place), PATIENCE, ('127.0.1.9', 0)):
                        far, _ = server.listener.accept()
                        with far:
                            far.settimeout(PATIENCE)
                            heads.append(line_of(far).split()[:4] if option == '--send-proxy' else read_exactly(far, 28)[:24])
        assert heads[0] == heads[1], (option, heads)


TRIALS = [a_server_is_told_of_its_client, a_mapped_address_stays_one_of_ipv6, a_server_that_speaks_first_is_told_first,
          a_server_that_comes_late_is_told_once, much_follows_a_header, both_versions_are_one_too_many, haproxy_believes_it,
          haproxy_tells_the_same]
