"""Trials of what is delivered where a peer resets its connection: what was taken of it comes through, however slowly the other reads."""
import concurrent.futures
import contextlib
import fcntl
import socket
import termios
import threading
import time

from lib.proxy import PATIENCE, TABLE, TRACK, Proxy, end_of, free_port, hears_end, reset, wait_for

# How many bytes are sent, in short and in long trials, and how many of them the other side leaves unread until the end.
MUCH, VERY_MUCH, UNREAD = 3_000_000, 300_000_000, 2_000_000
# How much room a slow side has to receive, in bytes.
ROOM = 16_384
# What is sent, so that a byte that is lost or moved shows.
PATTERN = bytes(range(251)) * 261


def hosts():
    """The hosts of this machine of both families, by their names as an address has them; IPv4 alone where there is no other."""
    with contextlib.suppress(OSError), socket.create_server(('::1', 0), family=socket.AF_INET6):
        return {'127.0.0.1': '127.0.0.1', '::1': '[::1]'}
    return {'127.0.0.1': '127.0.0.1'}


class Pair:
    """A client and its server's end of a connection through the proxy, neither of which has much room to receive."""

    def __init__(self, host, *words):
        name, family = hosts()[host], socket.AF_INET6 if ':' in host else socket.AF_INET
        self.listener = socket.socket(family)
        self.listener.setsockopt(socket.SOL_SOCKET, socket.SO_RCVBUF, ROOM)
        self.listener.bind((host, 0))
        self.listener.listen(8)
        self.listener.settimeout(PATIENCE)
        port = free_port()
        table = TABLE.replace('type ip', 'type ipv6') if family == socket.AF_INET6 else TABLE
        self.proxy = Proxy(self.listener.getsockname()[1], [table, TRACK], '--bind', f'{name}:{port}', *words, threads=1, host=name)
        self.client = socket.socket(family)
        self.client.setsockopt(socket.SOL_SOCKET, socket.SO_RCVBUF, ROOM)
        self.client.settimeout(PATIENCE)
        self.client.connect((host, port))
        self.far, _ = self.listener.accept()
        self.far.settimeout(PATIENCE)

    def sides(self, of_client):
        """The side that sends, the client or the server, and the other."""
        return (self.client, self.far) if of_client else (self.far, self.client)

    def is_unused(self):
        """Whether the references of its clients were given back."""
        return self.proxy.is_unused()

    def __enter__(self):
        return self

    def __exit__(self, *_):
        for stream in (self.client, self.far, self.listener):
            stream.close()
        self.proxy.__exit__()


def is_acknowledged(stream):
    """Whether the system of a socket's peer has all that was sent."""
    return fcntl.ioctl(stream, termios.TIOCOUTQ, b'\0' * 4) == b'\0' * 4


def says_bytes(other):
    """Has a side say two bytes, one after the other, whoever hears them."""
    for _ in range(2):
        with contextlib.suppress(OSError):
            other.sendall(b'.')
        time.sleep(0.2)


def closes(sender, other):
    """Ends in order, once all is acknowledged; the other side says something then, which is answered by a reset. The system of a side
    that closes with more to send throws that away as it resets, whoever reads."""
    wait_for('all is acknowledged', lambda: is_acknowledged(sender))
    sender.close()
    says_bytes(other)


def ends_and_resets(sender, _):
    """Ends its way in order, and resets its connection."""
    sender.shutdown(socket.SHUT_WR)
    wait_for('its end is acknowledged', lambda: is_acknowledged(sender))
    reset(sender)


def resets(sender, _):
    """Resets its connection once all is acknowledged."""
    wait_for('all is acknowledged', lambda: is_acknowledged(sender))
    reset(sender)


# How a side ends that has sent all, and how the other one's connection ends for that.
ORDERS = {closes: 'orderly', ends_and_resets: 'orderly', resets: 'reset'}


def send_much(sender, count):
    """Sends so many bytes."""
    for _ in range(count // len(PATTERN)):
        sender.sendall(PATTERN)
    sender.sendall(PATTERN[:count % len(PATTERN)])


class Reader:
    """A side that reads, and compares what comes with what is sent."""

    def __init__(self, stream):
        self.stream, self.count = stream, 0

    def read(self, most):
        """Reads once, so many bytes at most. Whether anything came."""
        part = self.stream.recv(min(most, 65_536))
        begins = self.count % len(PATTERN)
        assert part == (PATTERN * 2)[begins:begins + len(part)], f'other bytes after {self.count}'
        self.count += len(part)
        return bool(part)

    def read_to(self, count):
        """Reads until so many bytes have come."""
        while self.count < count and self.read(count - self.count):
            pass

    def read_slowly(self, count):
        """Reads until so many bytes have come, with pauses. An end or a reset before stops it."""
        with contextlib.suppress(ConnectionResetError):
            while self.count < count and self.read(count - self.count):
                time.sleep(0.01)


def delivers(host, of_client, ends, count):
    """What is wrong where one side sends so many bytes and ends, and the other one reads the last of them slowly, and later."""
    name = f'{host}, {"client" if of_client else "server"}, {ends.__name__}'
    with Pair(host) as pair:
        sender, other = pair.sides(of_client)
        reader = Reader(other)
        sending = threading.Thread(target=send_much, args=(sender, count))
        sending.start()
        reader.read_to(count - UNREAD)
        sending.join()
        ends(sender, other)
        time.sleep(1.2)
        reader.read_slowly(count)
        if reader.count < count:
            return f'{name}: {reader.count} of {count} bytes'
        if (seen := end_of(other)) != ORDERS[ends]:
            return f'{name}: {seen}'
        other.close()
        wait_for(f'{name}: the reference goes back', pair.is_unused)
    return None


def what_was_taken_is_delivered(count=MUCH):
    """A side sends 3,000,000 bytes and ends, by IPv4 and by IPv6: in order, where the other says two bytes then; in order and then by a
    reset; or by a reset. The other side, which reads the last 2,000,000 a second later and slowly, gets all of them in each case. Then it
    reads an end, or a reset where there was no end. With --long they are 300,000,000."""
    cases = [(host, of_client, ends, count) for host in hosts() for of_client in (True, False) for ends in ORDERS]
    with concurrent.futures.ThreadPoolExecutor(4) as pool:
        faults = [fault for fault in pool.map(lambda case: delivers(*case), cases) if fault]
    assert not faults, faults


def a_reset_comes_at_once_where_nothing_waits():
    """A reset reaches the other side at once where nothing was written to it for a second."""
    for of_client in (True, False):
        with Pair('127.0.0.1') as pair:
            near, other = pair.sides(of_client)
            near.sendall(b'.')
            assert other.recv(1) == b'.', 'a byte passes'
            time.sleep(1.5)
            reset(near)
            began = time.monotonic()
            assert end_of(other) == 'reset'
            took = time.monotonic() - began
            assert took < 0.5, f'{took:.2f} s'


def a_side_that_takes_nothing_has_its_time():
    """With --timeout-fin 500ms a side that doesn't take what a side that was reset had sent holds the connection no longer than that."""
    for of_client in (True, False):
        with Pair('127.0.0.1', '--timeout-fin', '500ms') as pair:
            sender, other = pair.sides(of_client)
            send_much(sender, 1_000_000)
            resets(sender, other)
            took = wait_for('the reference goes back', pair.is_unused)
            assert took < 0.5 + 0.2 + 0.8, f'{took:.2f} s'
            assert hears_end(other, 1), 'it is told'


def one_that_sends_to_nobody_is_told():
    """A side that goes on sending to one that has ended and was reset is reset once it has sent a MiB or so, and the reference goes
    back."""
    for of_client in (True, False):
        with Pair('127.0.0.1') as pair:
            near, other = pair.sides(of_client)
            near.sendall(b'.')
            assert other.recv(1) == b'.', 'a byte passes'
            near.shutdown(socket.SHUT_WR)
            assert other.recv(1) == b'', 'an end passes'
            reset(near)
            with contextlib.suppress(ConnectionResetError, BrokenPipeError):
                send_much(other, 10 * MUCH)
                raise AssertionError('it sends all')
            wait_for('the reference goes back', pair.is_unused)


TRIALS = [what_was_taken_is_delivered, a_reset_comes_at_once_where_nothing_waits, a_side_that_takes_nothing_has_its_time,
          one_that_sends_to_nobody_is_told]
