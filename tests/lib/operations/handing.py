"""Trials of what a service manager does: it hands sockets over, and is told how it goes."""
import contextlib
import os
import re
import socket
import subprocess
import sys
import tempfile
import threading
import time

from lib.places import stickd
from lib.proxy import PATIENCE, TABLE, TRACK, Server, free_port, greets, is_greeted, read_all, wait_for


# How many clients are greeted between two restarts, at least.
BETWEEN_RESTARTS = 100
# A program that becomes another one, with descriptors from 3 on, and says by LISTEN_PID that they are its own.
HANDS_OVER = '''
import os, sys
kept = [os.dup2(int(number), 200 + place) for place, number in enumerate(sys.argv[1].split(","))]
for place, number in enumerate(kept):
    os.dup2(number, 3 + place, inheritable=True)
    os.close(number)
os.environ["LISTEN_PID"] = str(os.getpid())
os.execv(sys.argv[2], sys.argv[2:])
'''


class Manager:
    """A manager that holds the sockets of the program, and starts it as systemd does."""

    def __init__(self, server, names=('www', 'commands', 'stats'), bind=None):
        self.room = tempfile.TemporaryDirectory(prefix='stickd-')
        self.listener = socket.create_server(('127.0.0.1', 0), backlog=4096)
        self.port, self.names, self.sockets = self.listener.getsockname()[1], names, [self.listener]
        for name in names[1:]:
            stream = socket.socket(socket.AF_UNIX)
            stream.bind(self.path_of(name))
            stream.listen(128)
            self.sockets.append(stream)
        self.conf = f'{self.room.name}/proxy.cfg'
        with open(self.conf, 'w', encoding='utf-8') as file:
            file.write('\n    '.join(['listen www', f'bind {bind or f"127.0.0.1:{self.port}"}', TABLE, TRACK,
                                      f'server one 127.0.0.1:{server}']) + '\n')

    def path_of(self, name):
        return f'{self.room.name}/{name}'

    def start(self, *words, environment=None, threads=2):
        """A program with these sockets at descriptors 3 and up, as sd_listen_fds(3) has it."""
        handed = [stream.fileno() for stream in self.sockets]
        words = [stickd(), 'run', self.conf, '--socket', self.path_of('commands'), '--threads', str(threads), '--stats-socket',
                 self.path_of('stats'), *words]
        variables = {**os.environ, 'LISTEN_FDS': str(len(handed)), 'LISTEN_FDNAMES': ':'.join(self.names), **(environment or {})}
        return subprocess.Popen([sys.executable, '-c', HANDS_OVER, ','.join(map(str, handed)), *words], stdin=subprocess.DEVNULL,
                                stdout=subprocess.PIPE, stderr=subprocess.PIPE, text=True, env=variables, pass_fds=handed)

    def asked(self, name, line):
        """What a line is answered on a socket."""
        with socket.socket(socket.AF_UNIX) as stream:
            stream.settimeout(PATIENCE)
            stream.connect(self.path_of(name))
            stream.sendall(line.encode() + b'\n')
            stream.shutdown(socket.SHUT_WR)
            return read_all(stream).decode()

    def __enter__(self):
        return self

    def __exit__(self, *_):
        for stream in self.sockets:
            stream.close()
        self.room.cleanup()


@contextlib.contextmanager
def started(manager, *words, **others):
    def answers():
        # A socket that isn't handed over isn't there at first.
        with contextlib.suppress(OSError):
            return manager.asked('commands', 'show table').startswith('# table')
        return False
    program = manager.start(*words, **others)
    try:
        wait_for('it answers', lambda: program.poll() is not None or answers())
        assert program.poll() is None, program.stderr.read()
        yield program
    finally:
        program.kill()
        program.communicate()


def sockets_are_taken_over():
    """The listener and both sockets are those of the manager: no other is bound, and their files stay behind the end."""
    with Server(greets) as server, Manager(server.port) as manager:
        with started(manager) as program:
            with socket.create_connection(('127.0.0.1', manager.port), PATIENCE) as client:
                client.settimeout(PATIENCE)
                assert is_greeted(client)
            assert manager.asked('stats', 'show info').startswith('Name: stickd\n')
            assert manager.asked('stats', 'shutdown frontend www').strip() == ''
            assert program.wait(PATIENCE) == 0
        assert os.path.exists(manager.path_of('commands')) and os.path.exists(manager.path_of('stats'))


def another_address_is_warned_of():
    """A listener that isn't where `bind` says is taken all the same, with a warning that names both."""
    with Server(greets) as server, Manager(server.port, bind=f'127.0.0.1:{free_port()}') as manager:
        with started(manager) as program:
            with socket.create_connection(('127.0.0.1', manager.port), PATIENCE) as client:
                client.settimeout(PATIENCE)
                assert is_greeted(client)
            program.kill()
            said = program.stderr.read()
            assert f'127.0.0.1:{manager.port}' in said and 'bind' in said, said


def sockets_of_another_are_left():
    """LISTEN_PID of another process: its sockets are none of this one's."""
    with Server(greets) as server, Manager(server.port, names=('www',)) as manager:
        words = [stickd(), 'run', manager.conf, '--socket', manager.path_of('mine'), '--threads', '1']
        done = subprocess.run(words, stdin=subprocess.DEVNULL, capture_output=True, text=True, timeout=PATIENCE, check=False,
                              env={**os.environ, 'LISTEN_PID': '1', 'LISTEN_FDS': '1'})
        assert done.returncode == 1 and "can't be bound: Address already in use" in done.stderr, done


def added(manager, stream, name):
    """Hands one socket more over."""
    manager.sockets.append(stream)
    manager.names = (*manager.names, name)


def is_served(port):
    """Whether a client of a port is served. One that is rejected may be reset before it knows that it is connected."""
    try:
        with socket.create_connection(('127.0.0.1', port), PATIENCE) as client:
            client.settimeout(PATIENCE)
            return is_greeted(client)
    except ConnectionResetError:
        return False


def all_listeners_are_served():
    """Each TCP listener is served that is handed over, also one without a name; `dst_port` is the socket's own port, whatever bind says,
    and a further bind that a socket listens at isn't bound again."""
    with Server(greets) as server, Manager(server.port, names=('www',), bind=f'127.0.0.1:{free_port()}') as manager:
        second, third = (socket.create_server(('127.0.0.1', 0)) for _ in range(2))
        for stream in (second, third):
            added(manager, stream, '')
        ports = [stream.getsockname()[1] for stream in manager.sockets]
        with open(manager.conf, 'a', encoding='utf-8') as file:
            file.write(f'    tcp-request connection reject if {{ dst_port {ports[1]} }}\n')
        with started(manager, '--bind', f'127.0.0.1:{ports[2]}', environment={'LISTEN_FDNAMES': 'www'}):
            for port, is_admitted in zip(ports, (True, False, True)):
                assert is_served(port) == is_admitted, port


def unserved():
    """Sockets that can't be served, each with a name and what is said of it."""
    datagrams = socket.socket(type=socket.SOCK_DGRAM)
    datagrams.bind(('127.0.0.1', 0))
    bound = socket.socket()
    bound.bind(('127.0.0.1', 0))
    with socket.create_server(('127.0.0.1', 0)) as listener:
        connected = socket.create_connection(listener.getsockname())
    unix, second, pipe = socket.socket(socket.AF_UNIX), socket.socket(socket.AF_UNIX), socket.socketpair()[0]
    for number, stream in enumerate((unix, second)):
        stream.bind(f'\0stickd-unserved-{os.getpid()}-{number}')
        stream.listen()
    listening = socket.create_server(('127.0.0.1', 0))
    return [(datagrams, 'dgram', 'it is no TCP socket'), (bound, 'www', "it doesn't listen"), (connected, 'www', "it doesn't listen"),
            (unix, 'www', 'it is no TCP socket'), (listening, 'stats', 'it is no Unix socket'), (pipe, 'stats', "it doesn't listen"),
            (second, 'commands', 'another one of its name is served')]


def what_cannot_be_served_is_refused():
    """A socket that isn't served, doesn't listen or isn't of TCP ends the start, with its number and its name, and none is served."""
    for stream, name, reason in unserved():
        with Server(greets) as server, Manager(server.port, names=('www', 'commands')) as manager:
            added(manager, stream, name)
            done = manager.start()
            written, said = done.communicate(timeout=PATIENCE)
            assert done.returncode == 1 and written == '', (name, said)
            assert f"stickd: socket 5 that was handed over, '{name}', can't be served: {reason}\n" in said, (name, said)


def more_than_64_are_refused():
    """A start to which more sockets are handed over than can be served says so, and takes none."""
    with Server(greets) as server, Manager(server.port, names=('www',)) as manager:
        done = manager.start(environment={'LISTEN_FDS': '65'})
        said = done.communicate(timeout=PATIENCE)[1]
        assert done.returncode == 1 and 'stickd: 65 sockets are handed over, and at most 64 can be served\n' in said, said


def clients_without_keys_are_warned_of():
    """A socket of both families on a table of IPv4 keys is warned of, whatever bind says; not where a rule turns the untracked away."""
    warning = 'Rule 1: track-sc0 tracks no client of IPv6'
    for guard, is_warned in (([], True), (['tcp-request connection reject unless { sc0_tracked }'], False)):
        with Server(greets) as server, Manager(server.port, names=('www', 'commands')) as manager:
            manager.listener.close()
            manager.sockets[0] = manager.listener = socket.create_server(('::', 0), family=socket.AF_INET6, dualstack_ipv6=True)
            with open(manager.conf, 'a', encoding='utf-8') as file:
                file.write(''.join(f'    {rule}\n' for rule in guard))
            with started(manager) as program:
                program.kill()
                assert (warning in program.stderr.read()) == is_warned, guard


def no_connection_is_refused_over_restarts():
    """While it is restarted again and again, and two clients after two others come meanwhile, none is refused or left without an answer.
    Between two restarts at least so many are greeted, however long that takes."""
    with Server(greets) as server, Manager(server.port) as manager:
        ends, counts = threading.Event(), {'greeted': 0, 'lost': 0}

        def come():
            while not ends.is_set():
                try:
                    with socket.create_connection(('127.0.0.1', manager.port), PATIENCE) as client:
                        client.settimeout(PATIENCE)
                        counts['greeted' if client.recv(1) == b'+' else 'lost'] += 1
                except OSError:
                    counts['lost'] += 1
                time.sleep(0.002)

        def greet_some():
            wanted = counts['greeted'] + BETWEEN_RESTARTS
            wait_for(f'{BETWEEN_RESTARTS} more are greeted', lambda: counts['greeted'] >= wanted or counts['lost'], within=3 * PATIENCE)
        program = manager.start()
        threads = [threading.Thread(target=come) for _ in range(2)]
        for thread in threads:
            thread.start()
        try:
            for _ in range(5):
                greet_some()
                manager.asked('stats', 'shutdown frontend www')
                assert program.wait(3 * PATIENCE) == 0, program.communicate()
                program.communicate()
                program = manager.start()
            greet_some()
        finally:
            ends.set()
            for thread in threads:
                thread.join(2 * PATIENCE)
            program.kill()
            program.communicate()
        assert counts['lost'] == 0, counts


@contextlib.contextmanager
def notified(is_abstract):
    """A socket for what the program tells its manager: the environment that names it, and the socket."""
    with tempfile.TemporaryDirectory(prefix='stickd-') as room, socket.socket(socket.AF_UNIX, socket.SOCK_DGRAM) as stream:
        name = f'stickd-notify-{os.getpid()}' if is_abstract else f'{room}/notify'
        stream.bind(f'\0{name}' if is_abstract else name)
        stream.settimeout(PATIENCE)
        yield {'NOTIFY_SOCKET': f'@{name}' if is_abstract else name}, stream


def heard(stream, until):
    """What comes up to a message with these words."""
    messages = []
    while not messages or until not in messages[-1]:
        messages.append(stream.recv(65536).decode())
    return messages


def the_manager_is_told():
    """READY=1 once it listens, WATCHDOG=1 while it runs, and STOPPING=1 as it drains; by a path and by an abstract name."""
    for is_abstract in (False, True):
        with Server(greets) as server, Manager(server.port) as manager, notified(is_abstract) as (environment, stream):
            with started(manager, '--report', '1s', environment={**environment, 'WATCHDOG_USEC': '1000000'}) as program:
                assert re.search(r'^READY=1$', '\n'.join(heard(stream, 'READY=1')), re.M)
                heard(stream, 'WATCHDOG=1')
                assert 'STATUS=' in heard(stream, 'STATUS=')[-1]
                manager.asked('stats', 'shutdown frontend www')
                heard(stream, 'STOPPING=1')
                assert program.wait(PATIENCE) == 0


TRIALS = [sockets_are_taken_over, another_address_is_warned_of, sockets_of_another_are_left, all_listeners_are_served,
          what_cannot_be_served_is_refused, more_than_64_are_refused, clients_without_keys_are_warned_of,
          no_connection_is_refused_over_restarts, the_manager_is_told]
