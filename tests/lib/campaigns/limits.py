"""Limits of the system: no descriptors, threads or memory more, a socket's path that can't be had or is gone, and standard streams
that are closed, full or read by nobody. Of each a clear line comes of it or an ended connection, and no reference is lost."""
import contextlib
import itertools
import os
import re
import resource
import shutil
import socket
import subprocess
import tempfile
import threading
import time

from lib.campaigns.clients import AT_ONCE, come, footprint, settles, wait_for_rest
from lib.campaigns.parts import Report, run, sole_line, write_file
from lib.places import stickd
from lib.proxy import Proxy, Server, arrive, echoes, free_port, greets, is_greeted, wait_for
from lib.shims import build_shim

TABLE = 'stick-table type ip size 1k store conn_cur,conn_cnt'
TRACK = 'tcp-request connection track-sc0 src'
SETTLED = re.compile(rb'settled www: \d+ calls, 0 references\n')
LOGGED = re.compile(rb"(?m)^(?:\[INFO |<4>stickd: warning: ).*\n")
# What stands in front of an error, for the journal.
MARK = re.compile(rb'(?m)^<3>')
THREADS = 4
NOBODY = 65534
# The seconds that a start may take that is to stop at once.
AT_MOST = 15


class Site:
    """A configuration in a folder, and the words that run it until so many connections have ended."""

    def __init__(self, room, server, stop_after=0, socket_path=None):
        self.port, self.path = free_port(), socket_path or os.path.join(room, 'commands')
        lines = ['listen www', f'bind 127.0.0.1:{self.port}', TABLE, TRACK, f'server s 127.0.0.1:{server}', '']
        self.words = ['run', write_file(room, 'proxy.cfg', '\n'.join(lines)), '--socket', self.path, '--threads', str(THREADS),
                      '--stop-after', str(stop_after)]


def said_alone(ran):
    """The same run, without the lines that tell how it goes, and without the marks of errors."""
    return ran._replace(stderr=MARK.sub(b'', LOGGED.sub(b'', ran.stderr)))


def settles_or_says(ran, *texts):
    """Whether a run ended with a settled table, or failed and said so on one line that begins with one of these texts."""
    alone = said_alone(ran)
    return ran.status == 0 and SETTLED.fullmatch(ran.stdout) is not None and alone.stderr == b'' or sole_line(alone, *texts)


def loadable(program, limits):
    """Those of these limits under which the program is loaded at all."""
    return [(name, limit) for name, limit in limits if run([program, '--version'], preexec_fn=limit).status == 0]


def start_each(report, program, limits, texts, **more):
    """Starts the program under each of these limits, and has it stop at once: it settles, or says on one line why not."""
    settled = 0
    for name, limit in limits:
        with tempfile.TemporaryDirectory(prefix='stickd-') as room:
            os.chmod(room, 0o777)
            ran = run([program, *Site(room, 1).words], patience=AT_MOST, preexec_fn=limit, **more)
        report.check(settles_or_says(ran, *texts), f'{name}: {ran}')
        settled += ran.status == 0
    report.check(0 < settled < len(limits), f'{settled} of {len(limits)} starts settled')
    report.tell(f'{settled} of {len(limits)} starts settled')


def limited(kind, most):
    """Sets a limit in the program that is to be started."""
    return lambda: resource.setrlimit(kind, (most, most))


def descriptors(given):
    """Starts with 3 descriptors and more; and with 64 a crowd of clients, of which each is served once there is room, while the
    socket answers in the end. Then the same crowd until the program stops, whose table is settled."""
    report = Report()
    limits = loadable(stickd(), [(f'{most} descriptors', limited(resource.RLIMIT_NOFILE, most)) for most in range(3, 40)])
    texts = ("stickd: a thread can't", "stickd: what wakes threads can't", 'stickd: 127.0.0.1:', 'stickd: /', 'stickd: no random numbers')
    start_each(report, stickd(), limits, texts)
    with Server(greets) as server, Proxy(server.port, [TABLE, TRACK], threads=2, descriptors=64) as proxy:
        held = [proxy.connect() for _ in range(100)]
        first = sum(map(is_served_soon, held))
        report.check(10 < first < 100, f'{first} of 100 are served at first')
        for client in held:
            client.close()
        wait_for('all are gone', proxy.is_unused)
        wait_for_rest(proxy, 2)
        report.check(is_greeted(arrive(proxy)), 'the next one is served')
    stop = ['--stop-after', str(given.count)]
    with Server(echoes) as server, Proxy(server.port, [TABLE, TRACK], *stop, threads=4, descriptors=AT_ONCE) as proxy:
        settle_crowd(report, given, proxy)
    return report


def settle_crowd(report, given, proxy):
    """Hostile clients come until the proxy stops, which has failed to accept some."""
    come(proxy, given.seed, range(given.count))
    status, written, said = proxy.ended()
    ends = re.search(r'connections: (\d+) admitted, 0 rejected, \d+ failed', said)
    is_settled = status == 0 and SETTLED.fullmatch(written.encode()) and ends and int(ends[1]) == given.count
    report.check(is_settled, f'with {AT_ONCE} descriptors: {(status, written, said)}')
    report.tried += given.count


def is_served_soon(client):
    """Whether a client is greeted at once."""
    client.settimeout(0.05)
    return is_greeted(client)


class Rushed(Proxy):
    """A proxy on eight threads, with few descriptors, to which clients come before all its threads are there."""

    def __init__(self, server):
        self.held = []
        super().__init__(server, [TABLE, TRACK], threads=8, descriptors=30)

    def start(self):
        crowd = threading.Thread(target=self.rush)
        crowd.start()
        super().start()
        crowd.join()

    def rush(self):
        """Takes more connections than there are descriptors for, as soon as they can be had."""
        ends = time.monotonic() + AT_MOST
        while len(self.held) < 40 and time.monotonic() < ends:
            with contextlib.suppress(OSError):
                self.held.append(self.connect())

    def leave(self):
        """All its clients are gone."""
        for client in self.held:
            client.close()


def rushes(given):
    """Starts with 30 descriptors amid a crowd of clients, so many times: once they are gone each of the eight threads is there."""
    report = Report()
    for number in range(given.count):
        with Server(greets) as server, Rushed(server.port) as proxy:
            proxy.leave()
            try:
                wait_for_rest(proxy, 8)
                report.check(True, '')
            except AssertionError:
                report.check(False, f'start {number}: {footprint(proxy)} descriptors and threads at rest')
    return report


def threads(given):
    """Starts in which one thread can't be started, or the system allows a user no more of them."""
    report = Report()
    with tempfile.TemporaryDirectory() as workplace:
        shim = build_shim(workplace, 'refuse_thread')
        for number in range(1, THREADS + 7):
            with tempfile.TemporaryDirectory(prefix='stickd-') as room:
                ran = run([stickd(), *Site(room, 1).words], patience=AT_MOST, env={'LD_PRELOAD': shim, 'REFUSED_THREAD': str(number)})
            is_refused = number <= THREADS + 5
            is_right = sole_line(said_alone(ran), "stickd: a thread can't be started") if is_refused else settles_or_says(ran)
            report.check(is_right, f'thread {number} is refused: {ran}')
    if os.geteuid() == 0:
        limits = [(f'{most} processes', limited(resource.RLIMIT_NPROC, most)) for most in range(1, THREADS + 11)]
        with tempfile.TemporaryDirectory() as place:
            os.chmod(place, 0o755)
            copy = shutil.copy(stickd(), place)
            start_each(report, copy, limits, ["stickd: a thread can't be started"], user=NOBODY)
    else:
        report.tell('without root no limit of processes was tried')
    return report


def memory(given):
    """Starts in an address space of so many MB: the program settles, or says on one line what it has no memory for. In a smaller one
    it isn't even loaded."""
    report = Report()
    sizes = [step << 20 for step in range(2, 30)] + [step << 23 for step in range(4, 60)]
    limits = loadable(stickd(), [(f'{most >> 20} MB', limited(resource.RLIMIT_AS, most)) for most in sizes])
    start_each(report, stickd(), limits, ('stickd: out of memory', "stickd: a thread can't be started"))
    return report


@contextlib.contextmanager
def full_folder(room):
    """A folder in which there is no room for a file more, if one can be had: a file system of this process's own, of one node."""
    place = os.path.join(room, 'full')
    os.mkdir(place)
    mounted = subprocess.run(['mount', '-t', 'tmpfs', '-o', 'nr_inodes=1', 'stickd', place], stderr=subprocess.DEVNULL, check=False)
    try:
        yield place if mounted.returncode == 0 else None
    finally:
        if mounted.returncode == 0:
            subprocess.run(['umount', place], check=True)


def socket_paths(given):
    """Paths at which no socket can be bound: each is said on one line, and nothing is left behind."""
    report = Report()
    with tempfile.TemporaryDirectory(prefix='stickd-') as room, full_folder(room) as full:
        os.chmod(room, 0o755)
        paths = [os.path.join(room, 'none', 's'), room, '/proc/s', '/sys/s', '/dev/null', '/dev/null/s', os.path.join(room, 'x' * 90)]
        paths += [os.path.join(full, 's')] if full else []
        for path in paths:
            ran = run([stickd(), *Site(room, 1, socket_path=path).words], patience=AT_MOST)
            report.check(sole_line(said_alone(ran), f"stickd: {path} can't be bound: "), f'{path}: {ran}')
        report.tell('a full file system was ' + ('tried' if full else 'not to be had'))
        if os.geteuid() == 0:
            with tempfile.TemporaryDirectory() as place:
                os.chmod(place, 0o755)
                copy = shutil.copy(stickd(), place)
                ran = run([copy, *Site(room, 1).words], patience=AT_MOST, user=NOBODY)
            report.check(sole_line(said_alone(ran), f'stickd: {room}'), f'as nobody: {ran}')
    return report


def path_is_gone(given):
    """A socket's file that is removed, or replaced by another program's, while the proxy runs: it serves on, and stops."""
    report = Report()
    for way in ('removed', 'replaced'):
        with Server(echoes) as server, Proxy(server.port, [TABLE, TRACK], '--stop-after', '5', threads=2) as proxy, \
                socket.socket(socket.AF_UNIX) as other:
            os.unlink(proxy.path)
            if way == 'replaced':
                other.bind(proxy.path)
            with contextlib.suppress(subprocess.TimeoutExpired):
                settles(report, f'the path is {way}', proxy, 5, lambda: come(proxy, given.seed, range(5)))
            report.check(proxy.program.poll() is not None, f'the path is {way}: the program is still there')
    return report


# What a standard stream is: read by the trial, not there, a full device, or a pipe that nobody reads.
STREAMS = ('open', 'closed', 'full', 'unread')


def run_on(words, kinds, serve=None):
    """A run whose standard input, output and errors are of these kinds, with what is done meanwhile: its status, and what it wrote on
    those that are open."""
    def close():
        for number, kind in enumerate(kinds):
            if kind == 'closed':
                os.close(number)
    with contextlib.ExitStack() as opened:
        streams = [stream_of(kind, opened) for kind in kinds[1:]]
        running = opened.enter_context(subprocess.Popen(words, stdin=subprocess.DEVNULL, stdout=streams[0], stderr=streams[1], preexec_fn=close))
        opened.callback(running.kill)
        found = serve() if serve else None
        written, said = running.communicate(timeout=AT_MOST)
    return running.returncode, written, said, found


def stream_of(kind, opened):
    """A standard stream of this kind."""
    if kind in ('open', 'closed'):
        return subprocess.PIPE
    if kind == 'full':
        return opened.enter_context(open('/dev/full', 'wb'))
    reader, writer = os.pipe()
    os.close(reader)
    return opened.enter_context(open(writer, 'wb'))


def visit(site):
    """A client that comes once the program listens, and what it gets back of all bytes."""
    sent = bytes(range(256))

    def comes():
        with contextlib.suppress(ConnectionRefusedError), socket.create_connection(('127.0.0.1', site.port), AT_MOST) as client:
            client.sendall(sent)
            client.shutdown(socket.SHUT_WR)
            parts = []
            while part := client.recv(4096):
                parts.append(part)
            found.append(b''.join(parts))
        return found != []
    found = []
    wait_for('it listens', comes)
    return found == [sent]


def standard_streams(given):
    """Each kind of standard streams under each command: the status is 0 where what is to be written can be, else 1; the lines on
    standard error are those that it takes; and a client gets its own bytes and no others."""
    report = Report()
    with tempfile.TemporaryDirectory(prefix='stickd-') as room, Server(echoes) as server:
        conf = write_file(room, 'one.cfg', 'listen t\n')
        for kinds in itertools.product(('open', 'closed'), STREAMS, STREAMS):
            can_write = kinds[1] == 'open'
            wanted_said = b'' if can_write else b'stickd: writing failed'
            status, written, said, _ = run_on([stickd(), 'check', conf], kinds)
            is_right = status == (not can_write) and (written or b'') == (b'valid: 0 tables, 0 rules\n' if can_write else b'')
            report.check(is_right and (kinds[2] != 'open' or said.startswith(wanted_said)), f'check with {kinds}: {(status, written, said)}')
            site = Site(room, server.port, 1)
            status, written, said, got = run_on([stickd(), *site.words], kinds, lambda: visit(site))
            is_right = status == (not can_write) and got and (not can_write or SETTLED.fullmatch(written))
            report.check(is_right and (kinds[2] != 'open' or wanted_said in said), f'run with {kinds}: {(status, written, said, got)}')
    return report
