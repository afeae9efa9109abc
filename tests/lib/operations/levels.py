"""Trials of what the clients of a socket may do, by its level, in HAProxy's words (Management Guide 2.6, 9.3)."""
import grp
import os
import re
import socket
import stat
import subprocess

from lib.operations.watched import Watched
from lib.proxy import PATIENCE, TABLE, TRACK, Server, greets, stickd

HEADER = '# table: www, type: ip, size:1024, used:1\n'
ROW = '0x0: key=10.0.0.1 use=0 exp=0 conn_cnt=3 conn_cur=0 bytes_in_cnt=0 bytes_out_cnt=0\n'
HIDDEN = '# contents not dumped due to insufficient privileges\n'
DENIED = 'Permission denied\n\n'
SHOWN = HEADER + ROW + '\n'
# What each level is answered: a user, an operator and an administrator.
ANSWERS = [
    ('show table', HEADER + '\n', HEADER + '\n', HEADER + '\n'),
    ('show table www', HEADER + HIDDEN + '\n', SHOWN, SHOWN),
    ('show table www data.conn_cnt gt 1', HEADER + HIDDEN + '\n', SHOWN, SHOWN),
    ('\tshow\ttable  www\tkey 10.0.0.1', DENIED, SHOWN, SHOWN),
    ('show table none', 'No such table.\n\n', 'No such table.\n\n', 'No such table.\n\n'),
    ('set table www key 10.0.0.1 data.conn_cnt 3', DENIED, DENIED, '\n'),
    ('clear table www key 10.0.0.9', DENIED, DENIED, 'Key not present.\n\n'),
]
# The same of the stats socket alone.
OF_STATS = [
    ('show errors', DENIED, '\n', '\n'),
    ('show table www oldest-first', DENIED, SHOWN, SHOWN),
    ('show table www data.conn_cnt gt 1 data.conn_cur eq 0', HEADER + HIDDEN + '\n', SHOWN, SHOWN),
    ('show table www data.conn_cnt gt 1 data.conn_cur gt 0', HEADER + HIDDEN + '\n', HEADER + '\n', HEADER + '\n'),
    ('clear table www data.conn_cnt gt 1 data.conn_cur gt 0', DENIED, DENIED, '\n'),
    ('show table none data.conn_cnt gt 1 data.conn_cur gt 0', 'No such table.\n\n', 'No such table.\n\n', 'No such table.\n\n'),
    ('shutdown frontend', DENIED, DENIED, 'A frontend name is expected.\n\n'),
    ('shutdown frontend none', DENIED, DENIED, 'No such frontend.\n\n'),
]


class Levelled(Watched):
    """The program whose sockets have these levels, each with one entry in its table."""

    def __init__(self, server, socket_level, stats_options):
        self.stats_options = stats_options
        super().__init__(server, [TABLE, TRACK], '--socket-level', socket_level)

    def start(self):
        self.stats = os.path.join(self.room.name, 'stats')
        self.words += ['--stats-socket', self.stats + self.stats_options]
        super().start()


def unmeasured(answer):
    """An answer without the time that entries have left."""
    return re.sub(r'exp=\d+', 'exp=0', answer)


def each_level_has_its_answers():
    """On both sockets each level is answered what it may be, and all else is refused; several commands of a line each by itself."""
    with Server(greets) as server:
        for place, level in enumerate(('user', 'operator', 'admin'), start=1):
            # The other socket is the administrator's, who makes the entry.
            for socket_level, stats_options in ((level, ''), ('admin', f',level={level}')):
                with Levelled(server.port, socket_level, stats_options) as proxy:
                    made = 'set table www key 10.0.0.1 data.conn_cnt 3'
                    told, rows = (proxy.told, ANSWERS + OF_STATS) if stats_options else (lambda line: proxy.command(line + '\n'), ANSWERS)
                    (proxy.command if stats_options else proxy.told)(made + '\n' if stats_options else made)
                    for row in rows:
                        assert unmeasured(told(row[0])) == row[place], (level, stats_options, row[0], told(row[0]))
                    two = unmeasured(told(f'{ANSWERS[5][0]};show table'))
                    assert two == ANSWERS[5][place] + HEADER + '\n', (level, stats_options, two)


def a_level_below_admin_stops_nothing():
    """A program is stopped, and its rules are read again, over a socket of administrators alone."""
    with Server(greets) as server:
        for level in ('user', 'operator'):
            with Levelled(server.port, 'admin', f',level={level}') as proxy:
                for command in ('stop 0', 'shutdown frontend www', 'reload'):
                    assert proxy.told(command) == DENIED, (level, command)
                assert proxy.program.poll() is None and proxy.told('show table').startswith(HEADER[:15]), level
        with Levelled(server.port, 'user', '') as proxy:
            assert proxy.told('stop 0') == '\n'
            assert proxy.program.wait(PATIENCE) == 0


def the_stats_socket_has_its_group_and_mode():
    """The stats socket's file has the group and the mode that stand after its path, in any order."""
    group = grp.getgrgid(os.getegid()).gr_name
    with Server(greets) as server, Levelled(server.port, 'admin', f',level=admin,group={group},mode=640') as proxy:
        found = os.stat(proxy.stats)
        assert stat.S_IMODE(found.st_mode) == 0o640 and found.st_gid == os.getegid(), found


class Several(Watched):
    """The program with a stats socket for each level, which all may connect to but the administrators'."""

    def start(self):
        self.stats = os.path.join(self.room.name, 'stats')
        self.of = {'admin': self.stats, 'user': f'{self.stats}.user', 'operator': f'{self.stats}.operator'}
        for level, path in self.of.items():
            self.words += ['--stats-socket', f'{path},level={level},mode={"600" if level == "admin" else "666"}']
        super().start()

    def told_at(self, path, line):
        """What one line of commands is answered at this stats socket."""
        own, self.stats = self.stats, path
        try:
            return self.told(line)
        finally:
            self.stats = own

    def monitors_at(self, path):
        """Clients that hold all places of this stats socket."""
        held = [socket.socket(socket.AF_UNIX) for _ in range(4)]
        for client in held:
            client.settimeout(PATIENCE)
            client.connect(path)
            client.sendall(b'prompt\n')
            assert client.recv(100).endswith(b'> '), path
        return held


def each_stats_socket_has_its_own():
    """Of several stats sockets each has its own level, mode and places. A stop waits at the one that it is told to, and then the files of all
    are gone. A fifth is refused."""
    with Server(greets) as server, Several(server.port, [TABLE, TRACK]) as proxy:
        for place, level in enumerate(('user', 'operator', 'admin'), start=1):
            path = proxy.of[level]
            assert stat.S_IMODE(os.stat(path).st_mode) == (0o600 if level == 'admin' else 0o666), path
            assert proxy.told_at(path, ANSWERS[5][0]) == ANSWERS[5][place], level
            held = proxy.monitors_at(path)
            for other in proxy.of.values():
                assert proxy.told_at(other, 'show info').startswith('Name: stickd'), (level, other)
            for client in held:
                client.close()
        done = subprocess.run([stickd(), 'stop', '--stats-socket', proxy.stats], stdin=subprocess.DEVNULL, timeout=PATIENCE, check=False)
        assert done.returncode == 0 and proxy.program.wait(PATIENCE) == 0
        assert not any(map(os.path.exists, proxy.of.values())), os.listdir(proxy.room.name)
        words = [word for number in range(5) for word in ('--stats-socket', f'{proxy.stats}{number}')]
        done = subprocess.run([stickd(), 'run', 'none', '--socket', proxy.path, '--threads', '1', *words], stdin=subprocess.DEVNULL,
                              capture_output=True, text=True, timeout=PATIENCE, check=False)
        assert (done.returncode, done.stderr) == (2, 'stickd: --stats-socket can be given 4 times, and no more\n'), done


TRIALS = [each_level_has_its_answers, a_level_below_admin_stops_nothing, the_stats_socket_has_its_group_and_mode,
          each_stats_socket_has_its_own]
