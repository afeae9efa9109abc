"""A file of HAProxy that stickd runs, or checks, as it is, by `--haproxy`: what is served, what is said, and when nothing is started.
Everything is on 127.0.0.0/8, and each wait has an end."""
import contextlib
import os
import socket
import tempfile

from lib.adopt.live import GREETING, greet
from lib.adopt.parts import CHANGED, FAILED, SAME, run, write_file
from lib.adopt.traps import asked, at_work
from lib.proxy import Server, free_port

# A file of which options stand for four lines, and one line more that changes what is served.
FILE = """global
    nbthread 3
    stats socket FOLDER/stats.sock mode 600 level admin
defaults
    mode tcp
    maxconn 77
    timeout connect 4s
    timeout client 50s
    timeout server 50s
listen www
    bind 127.0.0.1:PORT
    stick-table type ip size 1k expire 1h store conn_cur
    tcp-request connection track-sc0 src
    tcp-request connection reject if { sc0_conn_cur gt 2 }
    server one 127.0.0.1:SERVER
"""
CHANGE = '    tcp-request connection silent-drop if { src 127.0.0.9 }\n'
CHANGE_SAID = 'stickd: line 16: rewritten, with a change of what is served: the connection is reset and not dropped silently'
BAD_COMMAND_LINE = 2
# The same behind a proxy: rules judge by the address that it tells.
PROXIED = FILE.replace(':PORT', ':PORT accept-proxy').replace('tcp-request connection', 'tcp-request session').replace(':SERVER', ':SERVER send-proxy')


class Place:
    """A folder with a file of HAProxy and a socket's path, and the port at which it is served."""

    def __init__(self, folder, server, more='', file=FILE):
        self.port, self.folder = free_port(), folder
        text = (file + more).replace('PORT', str(self.port)).replace('SERVER', str(server.port)).replace('FOLDER', folder)
        self.config = write_file(folder, 'haproxy.cfg', text.encode())
        self.socket = os.path.join(folder, 's.sock')
        self.stats = os.path.join(folder, 'stats.sock')

    def words(self, program, *options):
        """The words of a start."""
        return [program, 'run', '--haproxy', self.config, '--socket', self.socket, *options]

    def served(self, count):
        """How many of so many clients that stay are served."""
        with contextlib.ExitStack() as open_ones:
            return sum(self.is_served(open_ones) for _ in range(count))

    def is_served(self, open_ones, first=b''):
        """Whether one more client, which sends this first, gets the server's greeting. It may be reset before it knows that it is connected."""
        try:
            client = open_ones.enter_context(socket.create_connection(('127.0.0.1', self.port), timeout=6))
            client.sendall(first)
            return client.recv(64) == GREETING
        except OSError:
            return False

    def info(self):
        """What `show info` says on the stats socket that the file has."""
        lines = asked(self.stats, 'show info').decode().splitlines()
        return dict(line.split(': ', 1) for line in lines if ': ' in line)


def run_fault(adopter, server, folder):
    """The file runs: its limit holds, and options stand for its lines. The end of what is said tells what became of them."""
    place = Place(folder, server)
    with at_work(place.words(adopter.program), place.port, folder):
        served, info = place.served(4), place.info()
    with open(os.path.join(folder, 'said'), encoding='utf-8') as file:
        said = file.read()
    if served != 2 or (info['Nbthread'], info['Maxconn']) != ('3', '77'):
        return f'{served} of 4 served, {info}'
    return None if 'carried by options, ' in said and ' 0 changed, 0 lost' in said else f'it says {said!r}'


def winner_fault(adopter, server, folder):
    """An option of the command line counts more than a line of the file, in both ways of writing it."""
    place = Place(folder, server)
    for options in (['--threads', '2', '--connections=55'], ['--threads=2', '--connections', '55']):
        with at_work(place.words(adopter.program, *options), place.port, folder):
            info = place.info()
        if (info['Nbthread'], info['Maxconn']) != ('2', '55'):
            return f'{options}: {info}'
    return None


def header_fault(adopter, server, folder):
    """Behind a proxy, as the file says: clients are judged by the address that its headers tell, and one without a header is reset. An
    option of the command line counts more, also the one that tells the server by the other version."""
    place = Place(folder, server, file=PROXIED)
    for options in ([], ['--send-proxy-v2'], ['--accept-proxy', '127.0.0.1']):
        with at_work(place.words(adopter.program, *options), place.port, folder), contextlib.ExitStack() as open_ones:
            served = [place.is_served(open_ones, b'PROXY TCP4 203.0.113.%d 192.0.2.1 1234 80\r\n' % last) for last in (1, 1, 1, 2, 2)]
            served.append(place.is_served(open_ones, b'no header, and as long as one, so that it is judged by its bytes'))
        if served != [True, True, False, True, True, False]:
            return f'{options}: {served}'
    done = run([adopter.program, 'check', '--haproxy', place.config])
    return None if done.status == SAME else f'check: status {done.status}: {done}'


def change_fault(adopter, server, folder):
    """With a change nothing is started, with status 3, the line is told, and no socket is left; --anyway runs it all the same."""
    place = Place(folder, server, CHANGE)
    done = run(place.words(adopter.program))
    if done.status != CHANGED or CHANGE_SAID not in done.said or '--anyway' not in done.said[-1] or os.path.exists(place.socket):
        return f'status {done.status}: {done.said}'
    with at_work(place.words(adopter.program, '--anyway'), place.port, folder):
        served = place.served(4)
    return None if served == 2 else f'{served} of 4 served anyway'


def check_fault(adopter, server, folder):
    """A check says what the file loses, and what is made of it, with the status of that."""
    place = Place(folder, server)
    done = run([adopter.program, 'check', '--haproxy', place.config])
    if done.status != SAME or done.text != b'valid: 1 tables, 2 rules\n':
        return f'status {done.status}: {done}'
    changed = Place(folder, server, CHANGE)
    done = run([adopter.program, 'check', '--haproxy', changed.config])
    if done.status != CHANGED or done.text != b'valid: 1 tables, 3 rules\n' or CHANGE_SAID not in done.said:
        return f'status {done.status}: {done}'
    return None


def refusal_fault(adopter, server, folder):
    """What can't be run as it is: a file that isn't there, one that was adopted already, a section that isn't there. Options that mean
    something of a file of HAProxy alone want --haproxy, and without that option `run` wants its socket and its threads."""
    place = Place(folder, server)
    adopted = write_file(folder, 'stickd.cfg', adopter.adopt(place.config).text)
    rows = [
        ([adopter.program, 'run', '--haproxy', os.path.join(folder, 'none.cfg')], FAILED, "can't be read"),
        ([adopter.program, 'run', '--haproxy', adopted], FAILED, 'was adopted already'),
        (place.words(adopter.program, '--frontend', 'none'), FAILED, "no frontend or listen section 'none'"),
        (place.words(adopter.program, '--threads', '99'), BAD_COMMAND_LINE, '99'),
        ([adopter.program, 'run', adopted, '--socket', place.socket, '--threads', '1', '--anyway'], BAD_COMMAND_LINE, '--haproxy'),
        ([adopter.program, 'run', adopted], BAD_COMMAND_LINE, '--threads'),
        ([adopter.program, 'run', '--', '--haproxy'], BAD_COMMAND_LINE, '--threads'),
    ]
    for words, status, part in rows:
        done = run(words)
        if done.status != status or not any(part in line for line in done.said):
            return f'{words[1:]}: status {done.status}, {done.said}'
    return None


TRIALS = {'it runs': run_fault, 'the command line wins': winner_fault, 'behind a proxy': header_fault, 'a change': change_fault, 'a check': check_fault,
          'refusals': refusal_fault}


def as_it_is(adopter, _):
    """files that are run and checked by --haproxy"""
    faults = []
    with Server(greet) as server:
        for name, trial in TRIALS.items():
            with tempfile.TemporaryDirectory() as folder:
                try:
                    fault = trial(adopter, server, folder)
                except (AssertionError, OSError, KeyError) as reason:
                    fault = repr(reason)
            if fault:
                faults.append(f'{name}: {fault}')
    return faults, f'{len(TRIALS)} trials of files that are run as they are'
