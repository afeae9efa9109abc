"""Whether an adopted configuration judges as HAProxy does: each file is run by HAProxy, and as it was adopted by `stickd run`,
and the same connections from addresses of 127.0.0.0/8 are opened and closed at both.

In a copy of the file each listener is given a free port of 127.0.0.1, each server one that greets, each address of a rule one
of 127.0.0.0/8, so that sources can be picked that it means, and each period an hour, so that the speed of the machine says
nothing. Everything is on 127.0.0.0/8, and each wait has an end."""
import concurrent.futures
import contextlib
import os
import random
import re
import shlex
import shutil
import signal
import socket
import subprocess
import tempfile
import time

from lib.adopt.files import cases
from lib.adopt.parts import write_file
from lib.proxy import Server, free_port, wait_for
from lib.trials import wants

# The seconds that a greeting may take, and that may pass where a connection is dropped silently.
PATIENCE, SILENT = 6, 1
STEPS = 45
# How many files are tried side by side: they wait, mostly.
BESIDE = 8
GREETING = b'hello\n'
# Files of which HAProxy's own verdicts differ. Of the first the server is asked only once a request of HTTP has come. The second has a
# limit by fe_conn, which now and then counts a connection for seconds after its end: of twelve runs, three steps behind a close,
# six rejected what six accepted.
UNLIKE = ('http_mode.cfg', 'frontend_limits.cfg')
# How often a file is tried at most. What differs once may be the machine's: a fault differs each time.
TRIES = 3
SECTIONS = ('global', 'defaults', 'frontend', 'backend', 'listen', 'peers', 'resolvers')
ADDRESS = re.compile(r'(?<![\w./])(\d{1,3})\.(\d{1,3}\.\d{1,3}\.\d{1,3})(/\d+)?(?![\w.])')


def greet(client):
    """Greets a client, and then reads until its end."""
    client.settimeout(60)
    client.sendall(GREETING)
    while client.recv(4096):
        pass


def on_loopback(found):
    """An address of 127.0.0.0/8 in place of another, and a network that is no wider than that."""
    length = found.group(3)
    if length and int(length[1:]) < 8:
        length = '/8'
    return f'127.{found.group(2)}{length or ""}'


def served_bind(lines):
    """The number of the line by which the served frontend listens: the first of a section that isn't one of HTTP."""
    section, http, binds = 0, set(), []
    for number, line in enumerate(lines):
        words = line.split()
        if words and words[0] in SECTIONS:
            section = number
        elif words[:2] == ['mode', 'http']:
            http.add(section)
        elif words and words[0] == 'bind':
            binds.append((section, number))
    return next((number for section, number in binds if section not in http), binds[0][1] if binds else None)


def prepared_bind(words, port):
    """A line `bind` with this port."""
    host = '127.0.0.1'
    if words[1].startswith((':::', '[::]')):
        host = '[::]' if words[1].startswith('[::]') else '::'
    return f'    bind {host}:{port} {" ".join(words[2:])}'


def prepared_line(line, port, server):
    """A line of a file as it is tried, with this port where it is one by which a frontend listens, and this server."""
    words = line.split()
    first = words[0] if words else ''
    if first == 'bind' and len(words) > 1 and ':' in words[1]:
        return prepared_bind(words, port)
    if first == 'server':
        # The server greets and says nothing else, so a check of a protocol would find it down.
        return f'    server {words[1]} 127.0.0.1:{server} {" ".join(it for it in words[3:] if it != "check")}'
    if first == 'stick-table':
        return re.sub(r'expire \w+', 'expire 1h', re.sub(r'(_rate\((?:\d+,)?)\w+\)', r'\g<1>1h)', line))
    if words[:2] == ['tcp-request', 'inspect-delay']:
        return '    tcp-request inspect-delay 500ms'
    if first in ('acl', 'tcp-request'):
        return ADDRESS.sub(on_loopback, line)
    if first in ('user', 'group', 'chroot', 'daemon', 'log') or words[:2] == ['stats', 'socket']:
        return '    # ' + line
    return line


def prepare(text, port, server):
    """The text as it is tried, with this port for the listener that is served; and the addresses of its rules."""
    given = text.splitlines()
    served = served_bind(given)
    lines = [prepared_line(line, port if number == served else free_port(), server) for number, line in enumerate(given)]
    rules = [line for line in lines if line.split()[:1] in (['acl'], ['tcp-request'])]
    sources = [f'127.{found}' for line in rules for found in re.findall(r'127\.(\d+\.\d+\.\d+)', line)]
    return '\n'.join(lines) + '\n', ['127.0.0.1', *sources]


def neighbour(address):
    """The address behind, so that networks are met beside their own first one."""
    parts = address.split('.')
    return '.'.join(parts[:3] + [str(min(254, int(parts[3]) + 1))])


class Client:
    """Connections to one port, by number."""

    def __init__(self, port, patience):
        self.port, self.patience, self.open = port, patience, {}

    def connect(self, number, source):
        """Whether a connection from a source is accepted: the server's greeting comes."""
        client = socket.socket()
        client.settimeout(self.patience)
        try:
            client.bind((source, 0))
            client.connect(('127.0.0.1', self.port))
            got = client.recv(64)
        except OSError:
            got = b''
        if got == GREETING:
            self.open[number] = client
            return 'accept'
        client.close()
        return 'reject'

    def close(self, number):
        client = self.open.pop(number, None)
        if client:
            client.close()

    def close_all(self):
        for number in list(self.open):
            self.close(number)


def draw_steps(sources, seed):
    """What is done: (number, source) opens, and a number alone closes."""
    draw = random.Random(seed)
    pool = list(dict.fromkeys(sources + [neighbour(it) for it in sources] + ['127.0.77.1', '127.0.77.2']))[:12]
    steps, live_ones = [], []
    for number in range(STEPS):
        if live_ones and draw.random() < 0.25:
            steps.append(live_ones.pop(draw.randrange(len(live_ones))))
        else:
            # Most come from few sources, so that limits are met.
            source = pool[0] if draw.random() < 0.4 else draw.choice(pool)
            steps.append((number, source))
            live_ones.append(number)
    return steps


def judged(port, steps, patience):
    """What is said of each connection, with its source."""
    client, said = Client(port, patience), []
    for step in steps:
        if isinstance(step, tuple):
            said.append((step[1], client.connect(*step)))
        else:
            client.close(step)
            # Both count the end once they have seen it.
            time.sleep(0.3)
    client.close_all()
    return said


def listens(port):
    """Whether somebody listens at a port."""
    for table in ('/proc/net/tcp', '/proc/net/tcp6'):
        with open(table, encoding='ascii') as sockets:
            for line in sockets.readlines()[1:]:
                _, local, _, state, *_ = line.split()
                if state == '0A' and local.endswith(f':{port:04X}'):
                    return True
    return False


@contextlib.contextmanager
def running(words, port, folder):
    """A program that listens at a port; whether it does, and what it said so far."""
    path = os.path.join(folder, 'said')
    with open(path, 'wb') as said:
        program = subprocess.Popen(words, stdin=subprocess.DEVNULL, stdout=said, stderr=said, cwd=folder)
    try:
        with contextlib.suppress(AssertionError):
            wait_for('it listens', lambda: listens(port) or program.poll() is not None, within=30)
        with open(path, encoding='utf-8', errors='replace') as said:
            yield program.poll() is None and listens(port), said.read()[-300:]
    finally:
        program.send_signal(signal.SIGKILL)
        program.wait()


def compared(adopter, folder, config, port, steps):
    """What differs in what is said of connections, if anything, and how many were rejected."""
    adopted = adopter.adopt(config, '--anyway', '--first-server')
    command = adopter.adopt(config, '--anyway', '--first-server', '--command').text.decode()
    path = write_file(folder, 'stickd.cfg', adopted.text)
    # A connection that is dropped silently is known by nothing else.
    patience = SILENT if any('dropped silently' in line for line in adopted.said) else PATIENCE
    with running(['haproxy', '-db', '-f', config], port, folder) as (runs, said):
        if not runs:
            return f"HAProxy doesn't run it: {said}", 0
        wanted = judged(port, steps, patience)
    words = [adopter.program, 'run', path, '--socket', os.path.join(folder, 's.sock'), *shlex.split(command)[5:]]
    with running(words, port, folder) as (runs, said):
        if not runs:
            return f"stickd doesn't run it: {said}", 0
        found = judged(port, steps, patience)
    for number, (one, other) in enumerate(zip(found, wanted)):
        if one != other:
            return f'connection {number} of {one[0]}: {one[1]}, and HAProxy says {other[1]}', 0
    return None, sum(verdict == 'reject' for _, verdict in found)


def file_fault(adopter, path, server, seed):
    """What differs on a file each time that it is tried, if anything, how many connections were rejected, and how often it was tried."""
    for tries in range(1, TRIES + 1):
        fault, rejects = fault_of_one(adopter, path, server, seed)
        if not fault:
            break
        print(f'live, try {tries}: {fault}')
    return fault, rejects, tries


def fault_of_one(adopter, path, server, seed):
    """What differs on a file once, if anything, and how many connections were rejected."""
    with tempfile.TemporaryDirectory() as folder:
        with open(path, encoding='utf-8', errors='replace') as file:
            port = free_port()
            text, sources = prepare(file.read(), port, server.port)
        config = write_file(folder, 'haproxy.cfg', text.encode())
        beside = os.path.dirname(os.path.abspath(path))
        for name in os.listdir(beside):
            if name.endswith('.list'):
                shutil.copy(os.path.join(beside, name), folder)
        fault, rejects = compared(adopter, folder, config, port, draw_steps(sources, seed))
    return fault and f'{os.path.basename(path)}: {fault}', rejects


def live(adopter, given):
    """each file of tests/adopt_cases but two, and each that is named, beside HAProxy"""
    wants('haproxy')
    paths = [*(path for path in cases() if os.path.basename(path) not in UNLIKE), *given.files]
    with Server(greet) as server, concurrent.futures.ThreadPoolExecutor(BESIDE) as pool:
        ran = list(pool.map(lambda path: file_fault(adopter, path, server, given.seed), paths))
    faults = [fault for fault, _, _ in ran if fault]
    rejected, late = sum(rejects for _, rejects, _ in ran), sum(tries > 1 for _, _, tries in ran)
    if not rejected:
        faults.append('nothing was rejected')
    return faults, f'{len(paths)} files, {STEPS} steps each, {rejected} connections rejected, {late} files tried again'
