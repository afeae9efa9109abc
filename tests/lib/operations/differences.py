"""Trials of what differs from HAProxy, with both at work: each row of the guide's table that commands show."""
import contextlib
import os
import re
import signal
import socket
import subprocess
import tempfile
import time

from lib.operations.watched import Watched
from lib.proxy import PATIENCE, Server, free_port, greets, is_greeted, read_all, wait_for
from lib.trials import wants

# Tables of both, each in a section of its own.
TABLES = [('data', 'type ip size 1k expire 10m store gpc0,conn_cnt,conn_rate(10s)'), ('arrays', 'type ip size 1k expire 10m store gpc(2),gpt(1)'),
          ('bytes', 'type binary len 4 size 1k expire 10m store gpc0'), ('texts', 'type string size 1k expire 10m store gpc0'),
          ('six', 'type ipv6 size 1k expire 10m store gpc0'), ('held', 'type ip size 1k expire 10m store conn_cnt'),
          ('none', 'type ip size 1k expire 10m store conn_cnt')]
SECTIONS = ''.join(f'backend {name}\n    stick-table {words}\n' for name, words in TABLES)
RULES = ['tcp-request connection track-sc0 src table held', 'tcp-request connection track-sc1 src table bytes',
         'tcp-request connection track-sc2 src table none', 'tcp-request connection reject if { src 127.0.0.2 } { sc2_inc_gpc0 eq 0 }']
HAPROXY = '''global
    stats socket {path} level admin
    nbthread 1
defaults
    mode tcp
    timeout connect 5s
    timeout client 1m
    timeout server 1m
{sections}listen www
    bind 127.0.0.1:{port}
    {rules}
    server one 127.0.0.1:{server}
'''
# Commands in turn, HAProxy's answers, and ours. Addresses in front of entries, and what is left of lives, stand as stars.
NEW = '0x*: key={} use=0 exp=* {}\n\n'
COMMANDS = [
    ('show table data key 10.0.0.9', '\n', '# table: data, type: ip, size:1024, used:0\n\n'),
    ('clear table data key 10.0.0.9', '\n', 'Key not present.\n\n'),
    ('set table data key 10.0.0.1 data.conn_rate 5', '\n', "Data type can't be set.\n\n"),
    ('set table data key 10.0.0.1 data.gpc0 4294967296', '\n', 'Invalid value.\n\n'),
    ('show table data key 10.0.0.1', '# table: data, type: ip, size:1024, used:1\n' + NEW.format('10.0.0.1', 'gpc0=0 conn_cnt=0 conn_rate(10000)=5'),
     '# table: data, type: ip, size:1024, used:0\n\n'),
    ('set table data key 10.0.0.2 data.gpc0 7 data.conn_cnt x', 'Require a valid integer value to store\n\n', 'Invalid value.\n\n'),
    ('show table data key 10.0.0.2', '# table: data, type: ip, size:1024, used:2\n' + NEW.format('10.0.0.2', 'gpc0=7 conn_cnt=0 conn_rate(10000)=0'),
     '# table: data, type: ip, size:1024, used:0\n\n'),
    ('set table data key 10.0.0.2 data.gpc1 7', 'Data type not stored in this table\n\n', 'Data type not stored in this table.\n\n'),
    ('set table data key 10.0.0.2 data.gpc0 -1', '\n', 'Invalid value.\n\n'),
    ('set table data key none data.gpc0 1', '\n', 'Invalid key.\n\n'),
    ('show table gone', 'No such table\n\n', 'No such table.\n\n'),
    ('set table arrays key 10.0.0.1 data.gpc[1] 3', 'Unknown data type\n\n', '\n'),
    ('show table arrays', '# table: arrays, type: ip, size:1024, used:1\n' + NEW.format('10.0.0.1', 'gpt0=0 gpc0=0 gpc1=0'),
     '# table: arrays, type: ip, size:1024, used:1\n' + NEW.format('10.0.0.1', 'gpt[0]=0 gpc[0]=0 gpc[1]=3')),
    (f'set table texts key {40 * "a"} data.gpc0 1', '\n', '\n'),
    ('show table texts', '# table: texts, type: string, size:1024, used:1\n' + NEW.format(31 * 'a', 'gpc0=1'),
     '# table: texts, type: string, size:1024, used:1\n' + NEW.format(32 * 'a', 'gpc0=1')),
    ('set table six key ::1.2.3.4 data.gpc0 1', '\n', '\n'),
    ('show table six', '# table: six, type: ipv6, size:1024, used:1\n' + NEW.format('::1.2.3.4', 'gpc0=1'),
     '# table: six, type: ipv6, size:1024, used:1\n' + NEW.format('::102:304', 'gpc0=1')),
    ('set table bytes key c0000201 data.gpc0 1',
     'Inserting keys into tables of type other than ip, ipv6, string and integer is not supported\n\n', '\n'),
    ('set table data key 10.0.0.7 data.gpc0 3 data.conn_cnt 4', '\n', '\n'),
    ('show table data data.gpc0 gt 2 data.conn_cnt gt 3',
     '# table: data, type: ip, size:1024, used:4\n' + NEW.format('10.0.0.7', 'gpc0=3 conn_cnt=4 conn_rate(10000)=0'),
     '# table: data, type: ip, size:1024, used:1\n' + NEW.format('10.0.0.7', 'gpc0=3 conn_cnt=4 conn_rate(10000)=0')),
    ('show table data data.gpc0 gt 2 data.gpc1 gt 3', 'Filter entry #2: Data type not stored in this table\n\n',
     'Data type not stored in this table.\n\n'),
    ('show table data data.gpc0 gt 2 data.conn_cnt gt x', 'Filter entry #2: Require a valid integer value to compare against\n\n',
     'Invalid value.\n\n'),
    ('show table data' + 5 * ' data.gpc0 gt 0', "Detected extra data in filter, 16th word of input, after '0'\n\n", 'Unknown command.\n\n'),
    ('clear table data data.gpc0 gt 2 data.conn_cnt gt 3', '\n', '\n'),
    ('show table data data.gpc0 gt 2 data.conn_cnt gt 3', '# table: data, type: ip, size:1024, used:3\n\n',
     '# table: data, type: ip, size:1024, used:0\n\n'),
    ('clear table bytes key c0000201', 'Removing keys from tables of type other than ip, ipv6, string and integer is not supported\n\n', '\n'),
]


class HAProxy:
    """HAProxy at work on the same tables and rules."""

    def __init__(self, server):
        self.room = tempfile.TemporaryDirectory()
        self.path, self.port = os.path.join(self.room.name, 'stats'), free_port()
        file = os.path.join(self.room.name, 'haproxy.cfg')
        with open(file, 'w', encoding='utf-8') as out:
            out.write(HAPROXY.format(path=self.path, sections=SECTIONS, port=self.port, rules='\n    '.join(RULES), server=server))
        self.program = subprocess.Popen(['haproxy', '-db', '-f', file], stdin=subprocess.DEVNULL, stdout=subprocess.DEVNULL, stderr=subprocess.DEVNULL)
        wait_for('HAProxy answers', lambda: os.path.exists(self.path))

    def told(self, line):
        """What a line of commands is answered."""
        with socket.socket(socket.AF_UNIX) as stream:
            stream.settimeout(PATIENCE)
            stream.connect(self.path)
            stream.sendall(line.encode() + b'\n')
            return read_all(stream).decode()

    def connect(self, source='127.0.0.1'):
        """A client of the address."""
        return socket.create_connection(('127.0.0.1', self.port), PATIENCE, (source, 0))

    def __enter__(self):
        return self

    def __exit__(self, *_):
        self.program.send_signal(signal.SIGKILL)
        self.program.wait()
        self.room.cleanup()


def stable(answer):
    """An answer without the addresses of entries and what is left of their lives."""
    return re.sub(r'\bexp=\d+', 'exp=*', re.sub(r'^0x[0-9a-f]+:', '0x*:', answer, flags=re.M))


@contextlib.contextmanager
def both():
    """HAProxy, and the program, on the same tables and rules."""
    wants('haproxy')
    with Server(greets) as server, HAProxy(server.port) as haproxy, Watched(server.port, RULES, others=SECTIONS) as proxy:
        yield haproxy, proxy


def commands_differ_as_the_guide_says():
    """Commands of which the guide says that their answers differ, and how."""
    with both() as (haproxy, proxy):
        for command, theirs, ours in COMMANDS:
            assert stable(haproxy.told(command)) == theirs, (command, haproxy.told(command))
            assert stable(proxy.told(command)) == ours, (command, proxy.told(command))


def life_of(side):
    """What is left of the life of the only entry of the table `held`, in ms."""
    return int(re.search(r' exp=(\d+) ', side.told('show table held'))[1])


def is_let_in(side, source):
    """Whether a client of the address is greeted. A reset may come before it knows that it is connected."""
    try:
        with side.connect(source) as client:
            return is_greeted(client)
    except ConnectionResetError:
        return False


def connections_differ_as_the_guide_says():
    """A release refreshes an entry here, and in HAProxy only in a table that stores conn_cur. Binary keys are in lower case here, and in upper
    case there. What counts up a datum that isn't stored is false here, and 0 there."""
    with both() as (haproxy, proxy):
        for side, is_refreshed, key, passes in ((haproxy, False, '7F000001', False), (proxy, True, '7f000001', True)):
            with side.connect() as client:
                assert is_greeted(client)
                time.sleep(3)
            wait_for('the connection is released', lambda: ' use=0 ' in side.told('show table held'))
            assert (life_of(side) > 598_000) == is_refreshed, (side, life_of(side))
            assert f'key={key} ' in side.told('show table bytes'), (key, side.told('show table bytes'))
            assert is_let_in(side, '127.0.0.2') == passes, side


TRIALS = [commands_differ_as_the_guide_says, connections_differ_as_the_guide_says]
