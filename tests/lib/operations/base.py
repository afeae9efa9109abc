"""What trials of an operator's commands share: a running program with some entries, and its second self that asks it."""
import contextlib
import os
import pty
import select
import signal
import subprocess
import time

from lib.places import stickd
from lib.proxy import PATIENCE, Proxy, Server, echoes

TABLE = 'stick-table type ip size 1k expire 10m store conn_cur,gpc0,conn_rate(10s)'
OTHER = '\nbackend other\n    stick-table type string len 32 size 100 store gpc0\n'


@contextlib.contextmanager
def running(others=''):
    """The program at work on one table, and on those of other sections."""
    with Server(echoes) as server, Proxy(server.port, [TABLE], threads=1, others=others) as proxy:
        yield proxy


def asked(path, *words, command='ctl', environment=None):
    """What `stickd ctl` says to words: its status, and what it writes on standard output and standard error."""
    done = subprocess.run([stickd(), command, '--socket', path, *words], stdin=subprocess.DEVNULL, stdout=subprocess.PIPE,
                          stderr=subprocess.PIPE, text=True, timeout=PATIENCE, env=environment)
    return done.returncode, done.stdout, done.stderr


def answers(path, *words):
    """What commands are answered that do what they say."""
    status, written, said = asked(path, *words)
    assert (status, said) == (0, ''), f'{words}: status {status}, {said!r}'
    return written


def fill(proxy, count):
    """Puts so many keys into the table, the last with the greatest gpc0."""
    for number in range(1, count + 1):
        assert answers(proxy.path, 'set', 'table', 'www', 'key', f'10.0.0.{number}', 'data.gpc0', str(number)) == '\n'


class OnTerminal:
    """The program with a terminal for its standard output."""

    def __init__(self, *words, columns=None, lines=None):
        self.mine, theirs = pty.openpty()
        environment = {name: value for name, value in os.environ.items() if name not in ('LINES', 'COLUMNS')}
        environment.update({name: str(size) for name, size in (('COLUMNS', columns), ('LINES', lines)) if size})
        self.program = subprocess.Popen([stickd(), *words], stdin=subprocess.DEVNULL, stdout=theirs, stderr=subprocess.PIPE, text=True,
                                        env=environment)
        os.close(theirs)
        self.written = ''

    def pictures(self, count):
        """The first so many pictures, each from the cursor's way home up to the next one."""
        end = time.monotonic() + PATIENCE
        while self.written.count('\x1b[H\x1b[J') <= count:
            assert time.monotonic() < end, f'not {count} pictures: {self.written!r}'
            if select.select([self.mine], [], [], 0.1)[0]:
                self.written += os.read(self.mine, 65536).decode()
        return self.written.replace('\r\n', '\n').split('\x1b[H\x1b[J')[1:count + 1]

    def __enter__(self):
        return self

    def __exit__(self, *_):
        self.program.send_signal(signal.SIGKILL)
        self.program.communicate()
        os.close(self.mine)
