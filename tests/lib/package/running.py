"""What was installed at work: it answers, and serves a connection as the unit has it started."""
import contextlib
import os
import random
import re
import signal
import socket
import stat
import subprocess
import threading
import time

from lib.package.base import PATIENCE, Made, content, folder, put, run, same

CONFIGURATION = 'etc/stickd/stickd.cfg'
# SIGINT and SIGTERM, which the launcher blocks.
STOPS = sum(1 << number - 1 for number in (signal.SIGINT, signal.SIGTERM))
# A user without rights, who starts what root has installed.
NOBODY = 65534


def unit_of(root, prefix):
    """The words of the unit's command, which has to be the program's."""
    unit = content(root, prefix, 'lib/systemd/system/stickd.service').decode().replace('\\\n', ' ')
    program = os.path.join('/', prefix, 'bin/stickd')
    started = re.findall(r'^(?:ExecStart|ExecStartPre|ExecReload|ExecStop)=(\S+)', unit, re.MULTILINE)
    same('programs of the unit', started, [program, '/usr/bin/touch', *[program] * 5])
    same('paths of the unit', set(re.findall(r'/\S*bin/stickd\b', unit)), {program})
    assert re.search(r'^DynamicUser=yes$', unit, re.MULTILINE), 'the unit has no user of its own'
    checked = re.search(r'^ExecStartPre=(\S+ run .*)', unit, re.MULTILINE)[1].split()
    words, stop = (re.search(rf'^{name}=(.*)', unit, re.MULTILINE)[1].split() for name in ('ExecStart', 'ExecStop'))
    same('what is checked before a start', [word for word in checked if word != '--check'], words)
    return words, stop


class Echo:
    """A server of one client, which sends back what comes first."""

    def __init__(self):
        self.listener = socket.create_server(('127.0.0.1', 0))
        self.listener.settimeout(PATIENCE)
        self.port = self.listener.getsockname()[1]
        threading.Thread(target=self.serve, daemon=True).start()

    def serve(self):
        client, _ = self.listener.accept()
        with client:
            client.sendall(client.recv(100))
            client.recv(1)


def free_port():
    """A port that nobody has just now, and that clients aren't given."""
    with open('/proc/sys/net/ipv4/ip_local_port_range', encoding='ascii') as ports:
        above = int(ports.read().split()[0])
    while True:
        port = random.SystemRandom().randrange(10_000, above)
        with contextlib.suppress(OSError), socket.socket() as taken:
            taken.bind(('127.0.0.1', port))
            return port


def edited(root, front, back):
    """The operator's own configuration: the example, with other endpoints."""
    path = os.path.join(root, CONFIGURATION)
    text = content(path).decode()
    for old, new in [('bind [::]:8080\n', f'bind 127.0.0.1:{front}\n'), ('127.0.0.1:9000\n', f'127.0.0.1:{back}\n')]:
        same(f'{old!r} in the example', text.count(old), 1)
        text = text.replace(old, new)
    put(path, text)
    return text


def connected(connect, address, proxy):
    """A connection, once somebody listens, as long as the proxy runs."""
    until = time.monotonic() + PATIENCE
    while True:
        try:
            return connect(address)
        except OSError:
            assert proxy.poll() is None, f'the proxy ended: {proxy.stderr.read()}'
            assert time.monotonic() < until, f'nobody listens at {address}'
            time.sleep(0.05)


def to_unix(path):
    stream = socket.socket(socket.AF_UNIX)
    stream.settimeout(PATIENCE)
    stream.connect(path)
    return stream


def signals_blocked(process):
    """The signals that a process blocks, of which signal n is bit n - 1."""
    return int(re.search(r'^SigBlk:\t(\w+)$', content('/proc', str(process), 'status').decode(), re.MULTILINE)[1], 16)


def serves_one(root, prefix):
    """Starts what was installed, by the unit's own words and as a user without rights, and makes a connection."""
    echo, front, room = Echo(), free_port(), folder()
    edited(root, front, echo.port)
    words, stop = unit_of(root, prefix)
    same('what the unit starts', words[1:5], ['run', f'/{CONFIGURATION}', '--socket', '/run/stickd/stickd.sock'])
    # A socket's path has at most 107 bytes.
    address, stats, saved = (os.path.join(room, name) for name in 'stv')
    put(saved, '')
    words, stop = ([word.replace('/run/stickd/stats.sock', stats).replace('/var/lib/stickd/tables.saved', saved) for word in of]
                   for of in (words, stop))
    other = {'user': NOBODY, 'group': NOBODY, 'extra_groups': []} if os.geteuid() == 0 else {}
    if other:
        os.chown(room, NOBODY, NOBODY)
        os.chown(saved, NOBODY, NOBODY)
    proxy = subprocess.Popen([os.path.join(root, words[0][1:]), 'run', os.path.join(root, CONFIGURATION), '--socket', address,
                              *words[5:]], stdin=subprocess.DEVNULL, stdout=subprocess.PIPE, stderr=subprocess.PIPE, text=True,
                             umask=0o077, **other)
    try:
        with connected(lambda to: socket.create_connection(to, PATIENCE), ('127.0.0.1', front), proxy) as client:
            same('signals that are blocked', signals_blocked(proxy.pid) & STOPS, STOPS)
            client.sendall(b'hello')
            same('echo', client.recv(100), b'hello')
            with connected(to_unix, address, proxy) as operator:
                operator.sendall(b'show table www key ::ffff:127.0.0.1\n')
                operator.shutdown(socket.SHUT_WR)
                answer = operator.makefile().read()
            assert re.search(r'^0x0: key=::ffff:127\.0\.0\.1 use=1 exp=\d+ conn_cur=1$', answer, re.MULTILINE), answer
        same('mode of the socket', stat.S_IMODE(os.stat(address).st_mode), 0o600)
        run(os.path.join(root, stop[0][1:]), *stop[1:])
        written, said = proxy.communicate(timeout=PATIENCE)
    finally:
        proxy.kill()
        proxy.communicate(timeout=PATIENCE)
    same('status', proxy.returncode, 0)
    assert re.search(r'^\d+ cmd set table www key ::ffff:127\.0\.0\.1$', content(saved).decode(), re.MULTILINE), content(saved)
    assert re.fullmatch(r'settled www: \d+ calls, 0 references\n', written), (written, said)


def answers(root, prefix):
    """Sees that the installed program runs, and that it takes the installed configuration."""
    program = os.path.join(root, prefix, 'bin', 'stickd')
    same('--version', run(program, '--version')[0], f'stickd {Made.version}\n')
    same('check', run(program, 'check', os.path.join(root, CONFIGURATION))[0], 'valid: 1 tables, 3 rules\n')
