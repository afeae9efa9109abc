"""Clients that benches/beside_haproxy and benches/held_locks have: at a proxy's port of 127.0.0.1, and at its command socket."""
import contextlib
import select
import socket
import threading
import time


def address(number):
    """The IPv4 address of a number, as a key of a table."""
    return f'10.{number >> 16 & 255}.{number >> 8 & 255}.{number & 255}'


def send_all(client, lines, prompted):
    """Sends lines in pieces. HAProxy answers one line alone unless it is asked for its prompt."""
    piece = 'prompt\n' if prompted else ''
    for line in lines:
        piece += line
        if len(piece) > 60_000:
            client.sendall(piece.encode())
            piece = ''
    client.sendall((piece + ('quit\n' if prompted else '')).encode())
    client.shutdown(socket.SHUT_WR)


def ask(path, lines, prompted=False):
    """Sends lines over one client of a command socket, and answers how many bytes came back."""
    with socket.socket(socket.AF_UNIX) as client:
        client.connect(path)
        sending = threading.Thread(target=send_all, args=(client, lines, prompted))
        sending.start()
        count = 0
        while part := client.recv(1 << 18):
            count += len(part)
        sending.join()
    return count


def pings(port, count):
    """Milliseconds of a byte there and back, so many times, over one connection; from the least to the most."""
    took = []
    with socket.create_connection(('127.0.0.1', port), 10) as client:
        client.settimeout(60)
        client.setsockopt(socket.IPPROTO_TCP, socket.TCP_NODELAY, 1)
        # The first one opens the connection to the server too, and isn't counted.
        for _ in range(count + 1):
            began = time.monotonic()
            client.sendall(b'E')
            client.recv(1)
            took.append((time.monotonic() - began) * 1e3)
            time.sleep(0.005)
    return sorted(took[1:])


def is_closed(client):
    """Whether a client that doesn't wait is closed by now."""
    with contextlib.suppress(BlockingIOError):
        while True:
            try:
                if not client.recv(65536):
                    return True
            except ConnectionResetError:
                return True
    return False


class Speakers:
    """So many clients that each say something twice a second, from when they have connected until they are left."""

    def __init__(self, port, count):
        self.port, self.count, self.clients = port, count, []
        self.ends, self.thread = threading.Event(), threading.Thread(target=self.speak)

    def speak(self):
        while not self.ends.wait(0.5):
            for client in list(self.clients):
                with contextlib.suppress(OSError):
                    client.send(b'E')

    def count_kept(self):
        """How many of them aren't closed."""
        return sum(not is_closed(client) for client in self.clients)

    def __enter__(self):
        self.thread.start()
        for _ in range(self.count):
            self.clients.append(socket.create_connection(('127.0.0.1', self.port), 10))
            self.clients[-1].setblocking(False)
        return self

    def __exit__(self, *_):
        self.ends.set()
        self.thread.join()
        for client in self.clients:
            client.close()


def come_at_once(port, count, seconds):
    """How many of so many clients that come now are connected after so long."""
    clients, poll = [socket.socket() for _ in range(count)], select.poll()
    for client in clients:
        client.setblocking(False)
        client.connect_ex(('127.0.0.1', port))
        poll.register(client, select.POLLOUT)
    time.sleep(seconds)
    connected = len(poll.poll(0))
    for client in clients:
        client.close()
    return connected
