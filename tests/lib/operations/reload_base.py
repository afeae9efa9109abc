"""What trials of `stickd reload` share: a program whose file is written anew while it runs, and how it is asked to read that."""
import bisect
import contextlib
import os
import re
import subprocess
import time

from lib.operations.watched import Watched
from lib.places import stickd
from lib.proxy import PATIENCE, TABLE, TRACK, Server, configuration, greets, read_all, wait_for

# How often a run can be reloaded.
OFTEN = 1023
REJECT = 'tcp-request connection reject'


def names(greeting):
    """A server that tells its clients which one it is, and waits for their end."""
    def serve(client):
        client.sendall(greeting)
        read_all(client)
    return serve


def named_by(client):
    """The byte with which a client is greeted; nothing where it isn't."""
    with contextlib.suppress(OSError):
        return client.recv(1) if client is not None else b''
    return b''


class Reloaded(Watched):
    """The program at work on a file that is written anew: its tables, rules, server and other sections. What isn't told then stays as it
    was at the start."""

    def __init__(self, server, rules=(TRACK,), *words, tables=(TABLE,), others='', host='127.0.0.1', **more):
        self.first = {'tables': tables, 'rules': rules, 'server': f'{host}:{server}', 'others': others, 'bind': None}
        super().__init__(server, [*tables, *rules], *words, others=others, host=host, **more)
        self.first['bind'] = f'127.0.0.1:{self.port}'

    def start(self):
        # A pipe that nobody reads would have no room for a line of each reload.
        with open(self.log(), 'w', encoding='utf-8') as self.errors:
            super().start()

    def log(self):
        """The file of what it says on standard error."""
        return os.path.join(self.room.name, 'errors')

    def said(self):
        """The lines that it has said."""
        with open(self.log(), encoding='utf-8') as lines:
            return lines.read().splitlines()

    def text(self, **told):
        """The text of a file; without a bind or a server where that is told as nothing."""
        parts = {**self.first, **told}
        place, server = parts['bind'], parts['server']
        lines = [*([f'bind {place}'] if place else []), *parts['tables'], *parts['rules'], *([f'server one {server}'] if server else [])]
        return configuration(*lines, others=parts['others'])

    def write(self, text):
        """Puts another file in the place of the program's, as editors do."""
        new = f'{self.conf}.new'
        with open(new, 'wb') as file:
            file.write(text if isinstance(text, bytes) else text.encode())
        os.replace(new, self.conf)

    def reload(self):
        """What `stickd reload` says: its status, and what it writes on standard output and standard error."""
        return reload(self.stats)

    def asks(self):
        """What the stats socket answers to `reload`, which is quicker."""
        return self.told('reload').strip()

    def takes(self, **told):
        """Writes a file anew and has it reloaded, and answers the version."""
        self.write(self.text(**told))
        answer = self.asks()
        found = re.fullmatch(r'Reloaded: version (\d+), \d+ rules, server \S+\.', answer)
        assert found, answer
        return int(found[1])

    def counts_of_reloads(self):
        """The version that judges, and how often it was reloaded and was not."""
        shown = self.metrics()
        return (shown['stickd_rules_version'], *(shown[f'stickd_reloads_total{{result="{result}"}}'] for result in ('done', 'refused')))

    def settles(self):
        """Has it stop, once nothing is tracked: no reference is out."""
        wait_for('nothing is tracked', self.is_unused)
        done = subprocess.run([stickd(), 'stop', '--stats-socket', self.stats], stdin=subprocess.DEVNULL, timeout=PATIENCE, check=False)
        status, written, _ = self.ended()
        assert done.returncode == 0 and status == 0, (done, status, self.said())
        assert re.fullmatch(r'(?:settled \S+: \d+ calls, 0 references\n)+', written), written


def refused(answer):
    """What `stickd reload` says where it is answered why the old rules go on."""
    return 1, '', f'stickd: Not reloaded: {answer}\n'


def reload(path, *words):
    """What `stickd reload` says of a stats socket: its status, and what it writes on standard output and standard error."""
    done = subprocess.run([stickd(), 'reload', '--stats-socket', path, *words], stdin=subprocess.DEVNULL, stdout=subprocess.PIPE,
                          stderr=subprocess.PIPE, text=True, timeout=2 * PATIENCE, check=False)
    return done.returncode, done.stdout, done.stderr


@contextlib.contextmanager
def reloadable(*rules, words=(), serve=greets, **more):
    """The program at work by these rules, before a server."""
    with Server(serve) as server, Reloaded(server.port, rules, *words, **more) as proxy:
        yield proxy


class Versions:
    """What judges, by what it is known as: each version with the moments at which it was asked for and answered."""

    def __init__(self, first):
        self.known, self.asked, self.answered = [first], [float('-inf')], [float('-inf')]

    def goes_on_with(self, known, ask):
        """Asks for the next version, which is known as this, and waits for its answer."""
        self.known.append(known)
        self.asked.append(time.monotonic())
        ask()
        self.answered.append(time.monotonic())

    def possible(self, began, ended):
        """Those that may have judged a client that began to connect at one moment, and whose verdict was known at another: that which was
        answered last before, and those that were asked for meanwhile."""
        return self.known[bisect.bisect_left(self.answered, began) - 1:bisect.bisect_right(self.asked, ended)]
