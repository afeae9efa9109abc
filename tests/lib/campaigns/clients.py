"""Clients and servers of the running proxy that close, reset, stall, or say or read nothing, at every place of an exchange."""
import concurrent.futures
import contextlib
import itertools
import os
import re
import socket
import time

from lib.calls import ADMITTED, LOOK, REJECTED, calls_of_clients
from lib.campaigns.parts import Draw, Report
from lib.proxy import TRACK, Proxy, Server, arrive, free_port, read_all, reset, wait_for

TABLE = 'stick-table type ip size 1k store conn_cur,conn_cnt,sess_cnt,bytes_in_cnt,bytes_out_cnt'
REQUEST, REPLY = b'a request of some bytes', b'and what it is replied'
# How many clients are there at once, from how many addresses they come, and for how many seconds one waits for bytes.
AT_ONCE, SOURCES, HASTE = 32, 16, 0.2
# Of one address no more than one connection is accepted at a time.
LIMITED = 'tcp-request connection reject if { src 127.0.0.1 } { sc0_conn_cur gt 1 }'
# The KiB by which the program may have grown: half of them are of the records of a second, which are as long as that second was busy;
# the others are blocks that the allocator keeps. Of 5,000 connections that each left 200 bytes it would be as many.
GROWTH = 1024


def close(client):
    """Ends a connection."""
    client.close()


def shut(client):
    """Ends what is sent, and reads what comes; how a client ends an orderly exchange."""
    with client:
        client.shutdown(socket.SHUT_WR)
        return read_all(client)


def footprint(proxy):
    """How many descriptors and threads the program has, once it has answered a command."""
    proxy.command('show table\n')
    return tuple(len(os.listdir(f'/proc/{proxy.program.pid}/{kind}')) for kind in ('fd', 'task'))


def wait_for_rest(proxy, threads):
    """Waits until the program has no connection: three standard streams, of which it may open two anew, two sockets, two events by which
    threads are woken, its status in /proc, and two descriptors for each of its threads, or three where it keeps a socket for the server
    of its next client. Beside those threads there are six: the first, one that keeps the tables, and four for clients of the command
    socket."""
    wait_for('descriptors and threads are those of a program at rest', lambda: is_at_rest(*footprint(proxy), threads))


def is_at_rest(descriptors, running, threads):
    """Whether so many descriptors and running threads are those of a program at rest that serves on so many threads."""
    return 8 + 2 * threads <= descriptors <= 10 + 3 * threads and running == 6 + threads


def take(stream, count):
    """So many bytes of a stream, or those until its end."""
    parts = b''
    while len(parts) < count and (part := stream.recv(count - len(parts))):
        parts += part
    return parts


class Exchange:
    """Exchanges with a proxy, one after the other, each from an address of its own, with a server that serves each as it is told."""

    def __init__(self, report):
        self.report, self.number = report, 0
        self.serve = None
        self.server = Server(lambda client: self.serve(client))
        self.proxy = Proxy(self.server.port, [TABLE, TRACK], threads=2)

    def __enter__(self):
        return self

    def __exit__(self, *_):
        wait_for_rest(self.proxy, 2)
        self.proxy.__exit__()
        self.server.__exit__()

    def visit(self, serve, client, name):
        """A client, where the server serves it so: what it gets. Afterwards its reference is back, and no more is counted than there
        was; the bytes in and out are answered too."""
        self.serve, self.number = serve, self.number + 1
        source = f'127.1.{self.number >> 7}.{self.number % 128 + 1}'
        found = b''
        with contextlib.suppress(ConnectionResetError, BrokenPipeError):
            found = client(self.proxy.connect(source))
        wait_for(f'{name} is gone', lambda: (row := self.proxy.rows().get(source)) is not None and row['use'] == 0)
        row = self.proxy.rows()[source]
        passed = row['bytes_in_cnt'], row['bytes_out_cnt']
        self.report.check(row['conn_cnt'] == 1 and passed[0] <= len(REQUEST) and passed[1] <= len(REQUEST), f'{name}: {row}')
        return found, passed


def echo_all(stream):
    stream.sendall(read_all(stream))


def reply(stream):
    take(stream, len(REQUEST))
    stream.sendall(REPLY)
    read_all(stream)


def sends_some(count, end):
    """A client that sends so many bytes and ends so."""
    def visit(client):
        client.sendall(REQUEST[:count])
        return end(client)
    return visit


def reads_some(count, end):
    """A client that reads so many bytes of the reply and ends so."""
    def visit(client):
        client.sendall(REQUEST)
        found = take(client, count)
        end(client)
        return found
    return visit


def asks(client):
    """A client that asks and reads all that comes."""
    with client:
        client.sendall(REQUEST)
        return read_all(client)


def hears_some(count, end):
    """A server that reads so many bytes and ends so."""
    def serve(stream):
        take(stream, count)
        end(stream)
    return serve


def replies_some(count, end):
    """A server that reads the request, and ends so behind so many bytes of its reply."""
    def serve(stream):
        take(stream, len(REQUEST))
        stream.sendall(REPLY[:count])
        end(stream)
    return serve


def exchanges(given):
    """Clients and servers that end behind each byte of a small exchange, by a close, by a reset, and in order."""
    report = Report()
    with Exchange(report) as exchange:
        for count, end in itertools.product(range(len(REQUEST) + 1), (close, reset)):
            exchange.visit(echo_all, sends_some(count, end), f'a client sends {count} bytes, and {end.__name__}')
            exchange.visit(hears_some(count, end), asks, f'a server reads {count} bytes, and {end.__name__}')
        for count in range(len(REQUEST) + 1):
            found = exchange.visit(echo_all, sends_some(count, shut), f'a client sends {count} bytes in order')
            report.check(found == (REQUEST[:count], (count, count)), f'{count} bytes that are sent back: {found}')
        for count, end in itertools.product(range(len(REPLY) + 1), (close, reset)):
            found, _ = exchange.visit(reply, reads_some(count, end), f'a client reads {count} bytes, and {end.__name__}')
            report.check(found == REPLY[:count], f'{count} bytes that are read: {found!r}')
            found, passed = exchange.visit(replies_some(count, end), asks, f'a server replies {count} bytes, and {end.__name__}')
            is_right = found == REPLY[:count] and passed == (len(REQUEST), count) if end is close else REPLY.startswith(found)
            report.check(is_right, f'{count} bytes that are replied: {found!r}, {passed}')
    return report


def sends_slowly(client):
    """A client that sends and reads a byte at a time."""
    for byte in REQUEST:
        client.sendall(bytes([byte]))
        time.sleep(0.002)
    client.shutdown(socket.SHUT_WR)
    while client.recv(1):
        pass


def sends_nothing(client):
    client.recv(1)


def reads_nothing(client):
    client.sendall(bytes(200_000))


def sends_and_reads(client):
    client.sendall(REQUEST)
    client.recv(1)


def is_reset(client):
    client.sendall(REQUEST)
    reset(client)


def is_reset_when_shut(client):
    client.sendall(REQUEST)
    client.shutdown(socket.SHUT_WR)
    reset(client)


# What a client does before it closes, if it hasn't been reset by then.
WAYS = [lambda client: None, reset, is_reset, is_reset_when_shut, sends_and_reads, lambda client: (sends_and_reads(client), reset(client)),
        lambda client: (client.sendall(REQUEST), shut(client)), shut, sends_slowly, sends_nothing, reads_nothing,
        lambda client: (reads_nothing(client), reset(client))]


def floods(stream):
    stream.sendall(bytes(300_000))
    read_all(stream)


def stalls(stream):
    """A server that reads nothing for a while."""
    time.sleep(0.05)


def any_server(draw):
    """A server that serves each client in some way."""
    ways = [echo_all, echo_all, floods, stalls, reset, close, reply]
    return Server(lambda stream: draw.choice(ways)(stream))


def come(proxy, seed, numbers):
    """Clients of these numbers come, each in a way of its own, many at once."""
    def visit(number):
        client = arrive(proxy, f'127.0.0.{number % SOURCES + 1}')
        if client is not None:
            client.settimeout(HASTE)
            with client, contextlib.suppress(OSError):
                Draw('clients', seed, number).choice(WAYS)(client)
    with concurrent.futures.ThreadPoolExecutor(AT_ONCE) as pool:
        list(pool.map(visit, numbers))


def counted(proxy, datum):
    """A datum of all entries together."""
    return sum(row[datum] for row in proxy.rows().values())


def stay_unharmed(report, given):
    """Clients come in two halves: behind each no reference is out, each was counted, and the program is at rest; behind the second it has
    no more memory than behind the first."""
    words = [TABLE, TRACK, LIMITED]
    with any_server(Draw('servers', given.seed)) as server, Proxy(server.port, words, '--roll-at', '1000', threads=4) as proxy:
        resident = []
        for half in (range(given.count // 2), range(given.count // 2, given.count)):
            come(proxy, given.seed, half)
            wait_for('all were seen', lambda: counted(proxy, 'conn_cnt') == half.stop)
            wait_for('all are gone', proxy.is_unused)
            wait_for_rest(proxy, 4)
            resident.append(proxy.resident())
        report.check(0 < counted(proxy, 'sess_cnt') < given.count, 'some are admitted, and some rejected')
        report.check(resident[1] - resident[0] <= GROWTH, f'KiB resident: {resident}')
        report.tell(f'{given.count} clients, {counted(proxy, "sess_cnt")} admitted, KiB resident {resident}')
        report.tried += given.count


def settles(report, name, proxy, count, clients, looks=0):
    """Clients come until the proxy stops: its table is settled with no reference out, and the counts add up, as do the calls, of which
    rules that ask about an entry make so many."""
    clients()
    status, written, said = proxy.ended()
    ends = re.search(r'connections: (\d+) admitted, (\d+) rejected, 0 failed', said)
    admitted, rejected = (int(ends[1]), int(ends[2])) if ends else (0, 0)
    calls = calls_of_clients(written, said, time.monotonic() - proxy.began)
    adds_up = admitted + rejected == count and calls == {'www': admitted * ADMITTED + rejected * REJECTED + looks}
    report.check(status == 0 and adds_up, f'{name}: {(status, written, said)}')
    report.tried += count


def clients(given):
    """Clients that close or reset, at once, before, during and after the relay, are slow, send nothing, or read nothing; and servers
    that reset, close, flood and stall."""
    report = Report()
    stay_unharmed(report, given)
    stop = ['--stop-after', str(given.count)]
    with any_server(Draw('servers', given.seed)) as server, Proxy(server.port, [TABLE, TRACK, LIMITED], *stop, threads=4) as proxy:
        # Of one address alone the rules ask how many there are.
        looks = LOOK * len(range(0, given.count, SOURCES))
        settles(report, 'with receipts', proxy, given.count, lambda: come(proxy, given.seed, range(given.count)), looks)
    return report


def servers(given):
    """The same clients of servers that all reset, close or stall, and without a server."""
    report = Report()
    for serve in (reset, close, stalls, None):
        server = None if serve is None else Server(serve)
        name = 'no server' if serve is None else f'servers, of which each does {serve.__name__}'
        words = ['--stop-after', str(given.count), '--timeout-server', '300ms']
        with Proxy(server.port if server else free_port(), [TABLE, TRACK], *words, threads=2) as proxy:
            settles(report, name, proxy, given.count, lambda: come(proxy, given.seed, range(given.count)))
        if server:
            server.__exit__()
    return report
