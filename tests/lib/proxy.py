"""What trials of the running proxy share: the program at work on a configuration, servers behind it, and clients before it. All
of them are on the loopback device alone, and every wait has an end."""
import contextlib
import os
import random
import re
import resource
import select
import signal
import socket
import struct
import subprocess
import tempfile
import threading
import time

from lib.places import stickd

# The seconds after which whatever is waited for has failed.
PATIENCE = 20
TABLE = 'stick-table type ip size 1k store conn_cur,conn_cnt,bytes_in_cnt,bytes_out_cnt'
TRACK = 'tcp-request connection track-sc0 src'


def reject_above(limit):
    return f'tcp-request connection reject if {{ sc0_conn_cur gt {limit} }}'


def configuration(*lines, others=''):
    """The text of a configuration with one section that listens, of these lines, and others."""
    return '\n    '.join(['listen www', *lines]) + '\n' + others


def free_port():
    """A port of 127.0.0.1 that nobody has, below those that the system gives clients: one that connects before anybody listens
    there could be given that very port, and would hold it by a connection to itself."""
    with open('/proc/sys/net/ipv4/ip_local_port_range', encoding='ascii') as ports:
        above = int(ports.read().split()[0])
    while True:
        port = random.SystemRandom().randrange(10_000, above)
        with contextlib.suppress(OSError), socket.socket() as taken:
            taken.bind(('127.0.0.1', port))
            return port


def read_all(stream):
    """All that a socket gives until its end."""
    parts = []
    while part := stream.recv(65536):
        parts.append(part)
    return b''.join(parts)


def wait_for(what, holds, within=PATIENCE, pause=0.02):
    """Waits until something holds, and answers how many seconds that took."""
    began = time.monotonic()
    while not holds():
        if time.monotonic() > began + within:
            raise AssertionError(f'not within {within} s: {what}')
        time.sleep(pause)
    return time.monotonic() - began


def raise_descriptors(wanted):
    """Takes as many descriptors as are wanted, or as the system allows, and answers how many. A program that is started then has
    as many."""
    soft, hard = resource.getrlimit(resource.RLIMIT_NOFILE)
    most = wanted if hard == resource.RLIM_INFINITY else min(wanted, hard)
    if soft != resource.RLIM_INFINITY and soft < most:
        resource.setrlimit(resource.RLIMIT_NOFILE, (most, hard))
    return most


class Server:
    """A server on a port of its own, each client of which is handed to a function in a thread."""

    def __init__(self, serve, host='127.0.0.1'):
        family = socket.AF_INET6 if ':' in host else socket.AF_INET
        self.listener = socket.create_server((host, 0), family=family, backlog=512)
        self.port, self.serve = self.listener.getsockname()[1], serve
        threading.Thread(target=self.accept, daemon=True).start()

    def accept(self):
        with contextlib.suppress(OSError):
            while True:
                client, _ = self.listener.accept()
                client.settimeout(PATIENCE)
                threading.Thread(target=self.serve_one, args=(client,), daemon=True).start()

    def serve_one(self, client):
        with client, contextlib.suppress(OSError):
            self.serve(client)

    def __enter__(self):
        return self

    def __exit__(self, *_):
        self.listener.close()


class EchoServer:
    """A server in one thread that sends back what comes, for thousands of clients."""

    def __init__(self):
        self.listener = socket.create_server(('127.0.0.1', 0), backlog=4096)
        self.listener.setblocking(False)
        self.port, self.poll, self.clients = self.listener.getsockname()[1], select.epoll(), {}
        self.poll.register(self.listener, select.EPOLLIN)
        self.ends = False
        self.thread = threading.Thread(target=self.serve)
        self.thread.start()

    def serve(self):
        while not self.ends:
            for number, _ in self.poll.poll(0.1):
                if number == self.listener.fileno():
                    self.accept()
                else:
                    self.echo(self.clients[number])

    def accept(self):
        with contextlib.suppress(BlockingIOError):
            while True:
                client, _ = self.listener.accept()
                self.clients[client.fileno()] = client
                self.poll.register(client, select.EPOLLIN)

    def echo(self, client):
        with contextlib.suppress(OSError):
            if some := client.recv(65536):
                client.sendall(some)
                return
        del self.clients[client.fileno()]
        client.close()

    def __enter__(self):
        return self

    def __exit__(self, *_):
        self.ends = True
        self.thread.join()
        for client in self.clients.values():
            client.close()
        self.listener.close()


class FarServer:
    """A server that hands each of its connections to the trial, which leaves it open as long as it likes."""

    def __init__(self):
        self.listener = socket.create_server(('127.0.0.1', 0), backlog=512)
        self.listener.settimeout(PATIENCE)
        self.port = self.listener.getsockname()[1]

    def joined(self, proxy):
        """A client that has come through to the server, and the server's end of its connection: a byte has passed each way."""
        client = proxy.connect()
        far, _ = self.listener.accept()
        far.settimeout(PATIENCE)
        for speaker, hearer in ((client, far), (far, client)):
            speaker.sendall(b'.')
            assert hearer.recv(1) == b'.', 'a byte passes'
        return client, far

    def __enter__(self):
        return self

    def __exit__(self, *_):
        self.listener.close()


class Proxy:
    """The program at work on a configuration, in a folder of its own."""

    # Where what it says goes.
    errors = subprocess.PIPE

    def __init__(self, server, lines, *words, threads=8, descriptors=None, others='', environment=None, umask=-1,
                 host='127.0.0.1'):
        self.room = tempfile.TemporaryDirectory(prefix='stickd-')
        self.port, self.path = free_port(), os.path.join(self.room.name, 'commands')
        self.conf = os.path.join(self.room.name, 'proxy.cfg')
        with open(self.conf, 'w', encoding='utf-8') as file:
            file.write(configuration(f'bind 127.0.0.1:{self.port}', *lines, f'server one {host}:{server}', others=others))
        self.descriptors, self.environment, self.umask = descriptors, environment, umask
        self.words = ['run', self.conf, '--socket', self.path, '--threads', str(threads), *words]
        self.start()

    def start(self):
        self.began = time.monotonic()
        self.program = subprocess.Popen([stickd(), *self.words], stdin=subprocess.DEVNULL, stdout=subprocess.PIPE,
                                        stderr=self.errors, text=True, preexec_fn=self.limit, env=self.environment, umask=self.umask)
        wait_for('the program answers', lambda: self.program.poll() is not None or self.is_up())
        assert self.program.poll() is None, f'it ended at once: {self.program.stderr.read()}'

    def limit(self):
        """Has the program take no more descriptors than so many."""
        if self.descriptors:
            resource.setrlimit(resource.RLIMIT_NOFILE, (self.descriptors, self.descriptors))

    def is_up(self):
        with socket.socket(socket.AF_UNIX) as stream, contextlib.suppress(OSError):
            stream.connect(self.path)
            return True
        return False

    def connect(self, source='127.0.0.1'):
        """A client from this address."""
        client = socket.create_connection(('127.0.0.1', self.port), PATIENCE, (source, 0))
        client.settimeout(PATIENCE)
        return client

    def newcomer(self, source='127.0.0.1'):
        """A client that is about to connect, and doesn't wait for that."""
        client = socket.socket()
        client.setblocking(False)
        client.bind((source, 0))
        client.connect_ex(('127.0.0.1', self.port))
        return client

    def command_client(self, patience=PATIENCE):
        """A client of the command socket that has said nothing yet."""
        stream = socket.socket(socket.AF_UNIX)
        stream.settimeout(patience)
        stream.connect(self.path)
        return stream

    def command(self, text, patience=PATIENCE):
        """What commands are answered."""
        with self.command_client(patience) as stream:
            stream.sendall(text if isinstance(text, bytes) else text.encode())
            stream.shutdown(socket.SHUT_WR)
            return read_all(stream).decode('utf-8', 'replace')

    def fill(self, count):
        """Puts so many keys into the table, over one client that reads its answers meanwhile."""
        lines = ''.join(f'set table www key 10.{n >> 16}.{n >> 8 & 255}.{n & 255} data.gpc0 1\n' for n in range(count))
        with self.command_client(3 * PATIENCE) as stream:
            def say():
                stream.sendall(lines.encode())
                stream.shutdown(socket.SHUT_WR)
            saying = threading.Thread(target=say)
            saying.start()
            answered = sum(map(len, iter(lambda: stream.recv(1 << 18), b'')))
            saying.join()
            assert answered == count, f'{answered} bytes for {count} keys'

    def rows(self):
        """The entries of the table by their keys, each datum by its name."""
        shown = [re.findall(r'(\w+)=(\S+)', line) for line in self.command('show table www\n').splitlines() if line.startswith('0x0:')]
        return {row[0][1]: {name: int(value) for name, value in row[1:]} for row in shown}

    def resident(self):
        """KiB of memory that are resident."""
        with open(f'/proc/{self.program.pid}/status', encoding='utf-8') as lines:
            return next(int(line.split()[1]) for line in lines if line.startswith('VmRSS'))

    def switches(self):
        """How often a thread of the program has given up its processor to wait, by the threads."""
        tasks, counts = f'/proc/{self.program.pid}/task', {}
        for task in os.listdir(tasks):
            with open(f'{tasks}/{task}/status', encoding='utf-8') as lines:
                counts[task] = next(int(line.split()[1]) for line in lines if line.startswith('voluntary'))
        return counts

    @contextlib.contextmanager
    def stopped(self):
        """Meanwhile each of the program's threads stands still: whatever is done then it finds at once afterwards."""
        self.program.send_signal(signal.SIGSTOP)
        wait_for('it has stopped', self.has_stopped, pause=0.001)
        try:
            yield
            # What was sent last has arrived by then.
            time.sleep(0.05)
        finally:
            self.program.send_signal(signal.SIGCONT)

    def stall(self, seconds):
        """Has each of its threads stand still for so long."""
        with self.stopped():
            time.sleep(seconds)

    def has_stopped(self):
        """Whether each thread of the program has stopped, as by a signal."""
        tasks, states = f'/proc/{self.program.pid}/task', []
        for task in os.listdir(tasks):
            with open(f'{tasks}/{task}/stat', encoding='utf-8', errors='replace') as line:
                states.append(line.read().rsplit(')', 1)[1].split()[0])
        return all(state == 'T' for state in states)

    def is_unused(self):
        return all(row['use'] == 0 and row['conn_cur'] == 0 for row in self.rows().values())

    def killed(self):
        """Kills the program, and answers the lines that it has written on standard error."""
        self.program.kill()
        return self.program.communicate()[1].splitlines()

    def ended(self):
        """Waits until the program has ended: its status, and what it wrote."""
        written, said = self.program.communicate(timeout=PATIENCE)
        return self.program.returncode, written, said

    def __enter__(self):
        return self

    def __exit__(self, *_):
        self.program.kill()
        self.program.communicate()
        self.room.cleanup()


def greets(client):
    """A server that greets, and waits for its client's end."""
    client.sendall(b'+')
    read_all(client)


def echoes(client):
    """A server that answers, at its client's end, with what it was sent."""
    client.sendall(read_all(client))


def arrive(proxy, source='127.0.0.1'):
    """A client from this address; none where it is reset before it knows that it is connected."""
    with contextlib.suppress(ConnectionResetError):
        return proxy.connect(source)
    return None


def is_greeted(client):
    """Whether a client gets to the server."""
    with contextlib.suppress(OSError):
        return client is not None and client.recv(1) == b'+'
    return False


def closed_after(client):
    """The seconds until a client that says nothing is closed."""
    began = time.monotonic()
    with contextlib.suppress(ConnectionResetError):
        read_all(client)
    return time.monotonic() - began


def is_closed(client):
    """Whether a client is closed by now, whatever came before."""
    client.setblocking(False)
    with contextlib.suppress(BlockingIOError):
        while True:
            try:
                if not client.recv(65536):
                    return True
            except ConnectionResetError:
                return True
    return False


def hears_end(stream, within):
    """Whether a socket is told that its connection is over, also where an orderly end was read before."""
    poll = select.poll()
    poll.register(stream, 0)
    return any(what & (select.POLLHUP | select.POLLERR) for _, what in poll.poll(within * 1000))


def end_of(stream):
    """How a connection ends for who reads it: in order, or by a reset."""
    try:
        return 'orderly' if stream.recv(1) == b'' else 'bytes'
    except ConnectionResetError:
        return 'reset'


def reset(client):
    """Ends a connection by a reset."""
    client.setsockopt(socket.SOL_SOCKET, socket.SO_LINGER, struct.pack('ii', 1, 0))
    client.close()
