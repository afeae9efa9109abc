"""Files of which a reader might think that nothing is lost: each has a line, marked `# trap`, that HAProxy serves in a way of its own.
Of each `stickd adopt` says that what is served changes, at that line; or what it writes serves the same clients as HAProxy, which is
then tried live. Everything is on 127.0.0.0/8, and each wait has an end."""
import contextlib
import os
import shlex
import signal
import socket
import subprocess
import tempfile
import threading
import time

from lib.adopt.live import GREETING, compared, greet, listens
from lib.adopt.parts import CHANGED, SAME, fates_of, write_file
from lib.proxy import Server, free_port, wait_for
from lib.trials import wants

# stickd drains at a signal that was blocked as it started.
BLOCKED = ['env', '--block-signal=TERM,INT']

DEFAULTS = """defaults
    mode tcp
    timeout connect 4s
    timeout client 50s
    timeout server 50s
"""
TABLE = '    stick-table type ip size 1k expire 1h store conn_cur,conn_rate(1h),sess_rate(1h),sess_cnt\n'
LISTEN = DEFAULTS + 'listen www\n    bind 127.0.0.1:PORT\n'
TRACKED = LISTEN + TABLE + '    tcp-request connection track-sc0 src\n'
SERVER = '    server one 127.0.0.1:SERVER\n'

# Each trap: its name, and its file.
TRAPS = {
    'rate of connections': 'global\n    maxconnrate 5 # trap\n' + LISTEN + SERVER,
    'rate of sessions': 'global\n    maxsessrate 5 # trap\n' + LISTEN + SERVER,
    'rate of a frontend': LISTEN + '    rate-limit sessions 5 # trap\n' + SERVER,
    'places at a server': LISTEN + '    server one 127.0.0.1:SERVER maxconn 3 # trap\n',
    'places of servers': LISTEN + '    default-server maxconn 3 # trap\n' + SERVER,
    'places of servers, by defaults': DEFAULTS + '    default-server maxconn 3 # trap\n' + LISTEN.removeprefix(DEFAULTS) + SERVER,
    'a time in a queue': LISTEN + '    timeout queue 1s # trap\n    server one 127.0.0.1:SERVER maxconn 3\n',
    'places of a further listener': LISTEN + '    bind 127.0.0.1:OTHER maxconn 3 # trap\n' + SERVER,
    'places of the first listener': LISTEN.replace('PORT', 'PORT maxconn 3 # trap') + '    bind 127.0.0.1:OTHER\n' + SERVER,
    'a delay': LISTEN + '    tcp-request inspect-delay 2s\n    tcp-request content accept if WAIT_END # trap\n' + SERVER,
    'a delay by an ACL': LISTEN + '    acl late wait_end\n    tcp-request inspect-delay 2s\n    tcp-request content accept if late # trap\n' + SERVER,
    'a rejection of sessions': TRACKED + '    tcp-request content reject if { sc0_sess_rate gt 5 } # trap\n' + SERVER,
    'sessions that nobody counts': LISTEN + TABLE + '    tcp-request content track-sc0 src # trap\n'
                                   + '    tcp-request connection reject if { src_sess_cnt gt 5 }\n' + SERVER,
    'an accept before the rules of a backend': DEFAULTS + 'frontend www\n    bind 127.0.0.1:PORT\n    default_backend be\n'
    + '    tcp-request content accept if { src 127.0.0.0/8 } # trap\nbackend be\n' + TABLE
    + '    tcp-request content track-sc0 src\n    tcp-request content reject if { sc0_conn_cur gt 3 }\n' + SERVER,
    'an accept before rules of two sections': DEFAULTS + 'frontend www\n    bind 127.0.0.1:PORT\n    default_backend be\n'
    + '    tcp-request content accept if { src 127.0.0.1 } # trap\n    tcp-request content reject if { src 127.0.0.1 127.0.0.2 }\nbackend be\n'
    + TABLE + '    tcp-request content track-sc0 src\n    tcp-request content reject if { sc0_conn_cur gt 3 }\n' + SERVER,
    'an accept of all': DEFAULTS + 'frontend www\n    bind 127.0.0.1:PORT\n    default_backend be\n'
    + '    tcp-request content accept # trap\n    tcp-request content reject\nbackend be\n' + TABLE
    + '    tcp-request content track-sc0 src\n    tcp-request content reject if { sc0_conn_cur gt 3 }\n' + SERVER,
    'a count before the track': LISTEN + TABLE.replace('store ', 'store gpc0,') + '    tcp-request connection reject if { src_inc_gpc0 gt 3 } # trap\n'
                                + '    tcp-request connection track-sc0 src\n' + SERVER,
    'several servers': LISTEN + SERVER + '    server two 127.0.0.1:SERVER # trap\n',
}


def filled(text, **ports):
    """A file with its ports."""
    for name, port in ports.items():
        text = text.replace(name, str(port))
    return text


def steps():
    """Connections that are opened and stay: five of one source, then five of another, then one of a third."""
    sources = ['127.0.0.1'] * 5 + ['127.0.0.2'] * 5 + ['127.0.0.3']
    return list(enumerate(sources))


def trap_fault(adopter, name, text, server):
    """What is wrong with a trap, if anything: it changes what is served, and the report says so at its line; or nothing changes."""
    port = free_port()
    text = filled(text, PORT=port, OTHER=free_port(), SERVER=server.port)
    number = next(at for at, line in enumerate(text.splitlines(), 1) if '# trap' in line)
    with tempfile.TemporaryDirectory() as folder:
        config = write_file(folder, 'haproxy.cfg', text.encode())
        done = adopter.adopt(config)
        if done.status == CHANGED:
            said = fates_of(done.said).get(number, '')
            return None if 'with a change of what is served' in said else f'{name}: the change is said elsewhere: {said}'
        if done.status != SAME:
            return f'{name}: status {done.status}'
        fault, _ = compared(adopter, folder, config, port, steps())
    return fault and f'{name}: {fault}'


@contextlib.contextmanager
def at_work(words, port, folder):
    """A program that listens at a port; the process."""
    with open(os.path.join(folder, 'said'), 'wb') as said:
        program = subprocess.Popen(words, stdin=subprocess.DEVNULL, stdout=said, stderr=said, cwd=folder)
    try:
        wait_for('it listens', lambda: listens(port), within=30)
        yield program
    finally:
        program.send_signal(signal.SIGKILL)
        program.wait()


@contextlib.contextmanager
def both(adopter, text, **ports):
    """How both programs run a file, one by one: the words of each, its port and its folder. What is carried over has status 0."""
    with tempfile.TemporaryDirectory() as folder:
        config = write_file(folder, 'haproxy.cfg', filled(text, FOLDER=folder, **ports).encode())
        done, command = adopter.adopt(config), adopter.adopt(config, '--command')
        if done.status != SAME:
            raise AssertionError(f'status {done.status}: {done.said}')
        path = write_file(folder, 'stickd.cfg', done.text)
        words = [*BLOCKED, adopter.program, 'run', path, '--socket', os.path.join(folder, 's.sock'), *shlex.split(command.text.decode())[5:]]
        yield {'HAProxy': (['haproxy', '-db', '-f', config], folder), 'stickd': (words, folder)}


def asked(path, command):
    """What a stats socket answers a command."""
    with socket.socket(socket.AF_UNIX) as client:
        client.settimeout(10)
        client.connect(path)
        client.sendall(command.encode() + b'\n')
        parts = []
        while part := client.recv(65536):
            parts.append(part)
    return b''.join(parts)


def level_fault(adopter, server):
    """A stats socket of a level, or of none, which is an operator's: only an admin may shut a frontend down there, as in HAProxy."""
    for level in ('level user', 'level operator', 'level admin', ''):
        port, found = free_port(), {}
        text = f'global\n    stats socket FOLDER/stats.sock mode 600 {level}\n' + TRACKED + SERVER
        with both(adopter, text, PORT=port, SERVER=server.port) as programs:
            for name, (words, folder) in programs.items():
                with at_work(words, port, folder):
                    found[name] = b'denied' in asked(os.path.join(folder, 'stats.sock'), 'shutdown frontend www')
        if found['HAProxy'] != found['stickd'] or found['stickd'] == (level == 'level admin'):
            return f'{level or "no level"}: {found}'
    return None


def retries_fault(adopter, _):
    """A server that comes a second after its client: the client is served all the same, although no line says `retries`."""
    port, there, found = free_port(), free_port(), {}
    with both(adopter, LISTEN + SERVER, PORT=port, SERVER=there) as programs:
        for name, (words, folder) in programs.items():
            with at_work(words, port, folder), socket.create_connection(('127.0.0.1', port), timeout=10) as client:
                time.sleep(0.5)
                with socket.create_server(('127.0.0.1', there)) as listener:
                    listener.settimeout(8)
                    with contextlib.suppress(OSError):
                        late, _ = listener.accept()
                        threading.Thread(target=serve_once, args=(late,), daemon=True).start()
                    client.settimeout(8)
                    try:
                        found[name] = client.recv(64)
                    except OSError:
                        found[name] = b''
    return None if found['stickd'] == found['HAProxy'] == GREETING else str(found)


def serve_once(client):
    """Greets, and ends with the client."""
    with client, contextlib.suppress(OSError):
        greet(client)


def drain_fault(adopter, server):
    """The most time for which an open connection may go on once the program is to stop."""
    port, found = free_port(), {}
    text = 'global\n    hard-stop-after 2s\n' + LISTEN + SERVER
    with both(adopter, text, PORT=port, SERVER=server.port) as programs:
        for name, (words, folder) in programs.items():
            with at_work(words, port, folder) as program, socket.create_connection(('127.0.0.1', port), timeout=10) as client:
                client.recv(64)
                program.send_signal(signal.SIGUSR1 if name == 'HAProxy' else signal.SIGTERM)
                began = time.monotonic()
                client.settimeout(20)
                with contextlib.suppress(OSError):
                    client.recv(64)
                found[name] = time.monotonic() - began
    return None if all(1.5 < took < 6 for took in found.values()) else str(found)


CARRIED = {'level of a stats socket': level_fault, 'no retries': retries_fault, 'hard-stop-after': drain_fault}


def made(name, trial, adopter, server):
    """What is wrong with a trial of what is carried by an option, if anything."""
    try:
        fault = trial(adopter, server)
    except (AssertionError, OSError) as reason:
        fault = str(reason)
    return fault and f'{name}: {fault}'


def traps(adopter, _):
    """files of which a reader might think that nothing is lost, beside HAProxy"""
    wants('haproxy')
    with Server(greet) as server:
        faults = [trap_fault(adopter, name, text, server) for name, text in TRAPS.items()]
        faults += [made(name, trial, adopter, server) for name, trial in CARRIED.items()]
    return [fault for fault in faults if fault], f'{len(TRAPS)} files, and {len(CARRIED)} options'
