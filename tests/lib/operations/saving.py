"""Trials of what outlasts a restart: `stickd ctl save`, `run --save` and `run --load`, and random tables saved and loaded."""
import contextlib
import os
import random
import re
import signal
import socket
import subprocess
import tempfile
import threading
import time

from lib.calls import ADMITTED, calls_of_clients
from lib.operations.base import OTHER, asked
from lib.operations.watched import Watched
from lib.places import stickd
from lib.proxy import PATIENCE, Server, greets, is_greeted, read_all

TABLE = 'stick-table type ip size 1k expire 10m store conn_cur,gpc0,conn_rate(10s)'
HEAD = ('# saved by stickd, and whole if its last line says how many entries it has\n'
        '# each line has the ms that an entry has left, and the command that makes it\n'
        '# not saved: rates, and which connections hold an entry\n')
NOTES = HEAD + '# not known: which of two entries goes first that have the same time left, as all of a table without expire\n'
UNKNOWN = 'Unknown command.\n\n'
LIFE = 30_000
SIZE = 12


@contextlib.contextmanager
def said_by(answers):
    """A socket that answers each line as it is told to, and every other line as a command socket does what is no command."""
    with tempfile.TemporaryDirectory() as room, socket.socket(socket.AF_UNIX) as listener:
        path = os.path.join(room, 'commands')
        listener.bind(path)
        listener.listen()

        def serve():
            with contextlib.suppress(OSError):
                while True:
                    client, _ = listener.accept()
                    with client:
                        client.sendall(answers.get(read_all(client).decode().strip(), UNKNOWN).encode())

        threading.Thread(target=serve, daemon=True).start()
        yield path


def with_end(lines):
    """Lines of entries, and the last line of their file."""
    return lines + f'# entries: {sum(not line.startswith("#") for line in lines.splitlines())}\n'


def saved_of(answers, *tables):
    """What `stickd ctl save` makes of answers, behind the head."""
    with said_by(answers) as path:
        status, written, said = asked(path, 'save', *tables)
    assert (status, said) == (0, ''), (status, said)
    assert written.startswith(NOTES), written
    return written[len(NOTES):]


def a_listing_becomes_lines():
    """What isn't saved is left out, entries stand in the order in which they go, and keys that no command can write are counted."""
    www = ('# table: www, type: ip, size:10, used:4\n'
           '0x0: key=10.0.0.1 use=0 exp=300 gpc0=1 conn_rate(10000)=9 conn_cur=0 bytes_in_cnt=18446744073709551615\n'
           '0x0: key=10.0.0.2 use=2 exp=100 gpc0=2 conn_rate(10000)=9 conn_cur=2 bytes_in_cnt=0\n'
           '0x0: key=10.0.0.3 use=1 exp=0 gpc0=3 conn_rate(10000)=9 conn_cur=1 bytes_in_cnt=0\n'
           '0x0: key=10.0.0.4 use=0 exp=300 gpc0=4 conn_rate(10000)=9 conn_cur=0 bytes_in_cnt=0\n\n')
    names = ('# table: names, type: string, size:10, used:3\n'
             '0x0: key=a\\x20b use=0 exp=0 gpt[0]=1\n0x0: key=a;b use=0 exp=0 gpt[0]=1\n0x0: key==x use=0 exp=0 gpt[0]=1 gpt[1]=7\n\n')
    answers = {'show table': '# table: www, type: ip, size:10, used:4\n# table: names, type: string, size:10, used:3\n\n',
               'show table www': www, 'show table names': names}
    lost = '# not saved of table names: 2 entries, whose keys no command can write\n'
    first = ('100 cmd set table www key 10.0.0.2 data.gpc0 2 data.bytes_in_cnt 0\n'
             '300 cmd set table www key 10.0.0.1 data.gpc0 1 data.bytes_in_cnt 18446744073709551615\n'
             '300 cmd set table www key 10.0.0.4 data.gpc0 4 data.bytes_in_cnt 0\n'
             '2147483647 cmd set table www key 10.0.0.3 data.gpc0 3 data.bytes_in_cnt 0\n')
    second = '0 cmd set table names key =x data.gpt[0] 1 data.gpt[1] 7\n'
    assert saved_of(answers) == with_end(lost + first + second)
    assert saved_of(answers, 'www') == with_end(first)
    assert saved_of(answers, 'names', 'www') == with_end(lost + second + first)


def entries_stand_as_the_stats_socket_tells():
    """Where it tells which entry goes first, entries with the same time left stand so, and the file's head doesn't say that this isn't
    known. Where it tells so of one table alone, the head says it."""
    rows = ['0x0: key=10.0.0.7 use=0 exp=0 gpc0=1\n', '0x0: key=10.0.0.2 use=0 exp=0 gpc0=2\n', '0x0: key=10.0.0.5 use=0 exp=0 gpc0=3\n']
    header = '# table: {}, type: ip, size:10, used:3\n'
    answers = {'show table www oldest-first': header.format('www') + ''.join(rows) + '\n',
               'show table www': 'asked without need\n\n',
               'show table other': header.format('other') + ''.join(sorted(rows)) + '\n'}
    first, second, third = (f'0 cmd set table {{0}} key 10.0.0.{key} data.gpc0 {value}\n' for key, value in ((7, 1), (2, 2), (5, 3)))
    with said_by(answers) as path:
        assert asked(path, 'save', 'www') == (0, HEAD + with_end((first + second + third).format('www')), '')
        both = (first + second + third).format('www') + (second + third + first).format('other')
        assert asked(path, 'save', 'www', 'other') == (0, NOTES + with_end(both), '')


def what_can_not_be_saved_is_told():
    """No such table, a word that is no name, options that don't go with it, nobody there, an answer that is cut: nothing is written."""
    answers = {'show table no': 'No such table.\n\n', 'show table cut': '# table: cut, type: ip, size:10, used:1\n'}
    with said_by(answers) as path:
        assert asked(path, 'save', 'no') == (1, '', "stickd: 'show table no' is answered 'No such table.'\n")
        assert asked(path, 'save', 'cut') == (1, '', f"stickd: {path} was closed before the answer's end\n")
        for word in ('a b', 'a;clear table b', ''):
            assert asked(path, 'save', word) == (2, '', f"stickd: '{word}' is no table's name\n"), word
        for words in (('--json',), ('--watch', '1')):
            assert asked(path, *words, 'save') == (2, '', 'stickd: save takes no --json and no --watch\n'), words
    assert asked(path, 'save') == (1, '', f"stickd: {path} can't be reached: No such file or directory (os error 2)\n")


def without_what_is_lost(rows):
    """Rows without their times, references and rates."""
    return [re.sub(r' (use|exp|conn_cur|\w+\(\d+\))=\d+', '', row) for row in rows]


def left_of(rows):
    """The time that each row's entry has left."""
    return {row.split()[1]: int(re.search(r'exp=(\d+)', row)[1]) for row in rows}


def stopped(proxy):
    """Stops it, and that it ends well: what it said."""
    done = subprocess.run([stickd(), 'stop', '--stats-socket', proxy.stats], capture_output=True, timeout=3 * PATIENCE, check=False)
    assert done.returncode == 0, done
    return proxy.ended()


def a_restart_keeps_entries():
    """Entries in two shards are there behind a stop and a start, one that a connection held among them, with the time that they had
    left, but for a minute at most. The file is its owner's alone, and the uptime begins anew."""
    with tempfile.TemporaryDirectory() as room, Server(greets) as server:
        path = os.path.join(room, 'saved')
        open(path, 'w', encoding='utf-8').close()
        words = ['--shards', '2', '--load', path, '--save', path]
        with Watched(server.port, [TABLE, 'tcp-request connection track-sc0 src'], *words, others=OTHER) as proxy:
            for number in range(1, 40):
                assert proxy.command(f'set table www key 10.0.0.{number} data.gpc0 {number}') == '\n'
            assert proxy.command('set table other key ban data.gpc0 1; set table other key a;b') .startswith('\n\n')
            with proxy.connect() as client:
                assert is_greeted(client)
            before, names = (proxy.command(f'show table {name}').splitlines() for name in ('www', 'other'))
            status, written, said = stopped(proxy)
            calls = calls_of_clients(written, said, time.monotonic() - proxy.began, shards=2)
            # A listing asks both shards, and so does what `stickd stop` is told. What is saved is read without a call.
            assert status == 0 and calls == {'www': 39 + ADMITTED + 4, 'other': 2 + 4}, (status, written, said)
            assert os.stat(path).st_mode & 0o777 == 0o600 and os.listdir(room) == ['saved']
            proxy.start()
            after, others = (proxy.command(f'show table {name}').splitlines() for name in ('www', 'other'))
            assert without_what_is_lost(after) == without_what_is_lost(before), (before, after)
            assert others == names, (names, others)
            old, new = left_of(before[1:-1]), left_of(after[1:-1])
            assert all(old[key] - 60_000 < new[key] <= 600_000 for key in old), (old, new)
            assert int(proxy.info()['Uptime_sec']) < 60
            stopped(proxy)


def a_crash_leaves_the_file_of_before():
    """Killed, it leaves the file as it was."""
    with tempfile.TemporaryDirectory() as room, Server(greets) as server:
        path = os.path.join(room, 'saved')
        with open(path, 'w', encoding='utf-8') as file:
            file.write('9 cmd set table www key 10.0.0.1\n')
        with Watched(server.port, [TABLE], '--save', path) as proxy:
            assert proxy.command('set table www key 10.0.0.2') == '\n'
            proxy.program.send_signal(signal.SIGKILL)
            proxy.ended()
            with open(path, encoding='utf-8') as file:
                assert file.read() == '9 cmd set table www key 10.0.0.1\n'
            assert os.listdir(room) == ['saved']


def a_bad_file_lets_nothing_listen():
    """A file with a line that can't be loaded is told by its line, with status 1, and no socket is there."""
    with tempfile.TemporaryDirectory() as room:
        conf, path, sock = (os.path.join(room, name) for name in ('conf', 'saved', 'commands'))
        with open(conf, 'w', encoding='utf-8') as file:
            file.write(f'listen www\n    bind 127.0.0.1:1\n    {TABLE}\n    server one 127.0.0.1:2\n')
        with open(path, 'w', encoding='utf-8') as file:
            file.write('9 cmd set table www key 10.0.0.1\n9 cmd set table www key x\n')
        done = subprocess.run([stickd(), 'run', conf, '--socket', sock, '--threads', '1', '--load', path], capture_output=True, text=True,
                              timeout=PATIENCE, check=False)
        assert (done.returncode, done.stderr) == (1, f"<3>stickd: {path}: line 2: 'set table www key x' is answered 'Invalid key.'\n"), done
        assert not os.path.exists(sock)


def replayed(room, script, *words):
    """What a script is answered on the tables of a room."""
    done = subprocess.run([stickd(), 'replay', os.path.join(room, 'conf'), *words], input=script, capture_output=True, text=True,
                          timeout=3 * PATIENCE, check=False)
    assert (done.returncode, done.stderr) == (0, ''), done
    return done.stdout


def listings_of(text):
    """The listings of tables in what a script is answered, in order."""
    return [part.lstrip('\n') for part in re.split(r'(?<=\n)\n', text) if part.lstrip('\n').startswith('# table: ')]


def random_tables_are_the_same():
    """Of 600 random tables with expire, no two entries of which were refreshed in the same ms, what was saved and loaded shows the
    same rows with the same time left. As each is then filled, in one shard or three, purging 1, 2 or 8 at once, the same entries go."""
    seed = random.randrange(1 << 30)
    draw = random.Random(seed)
    for turn in range(20):
        names = [f't{number}' for number in range(30)]
        words = ['--shards', str(draw.choice((1, 3))), '--purge', str(draw.choice((1, 2, 8)))]
        kinds = {name: draw.choice(('integer', 'ip', 'string len 8')) for name in names}
        with tempfile.TemporaryDirectory() as room:
            with open(os.path.join(room, 'conf'), 'w', encoding='utf-8') as file:
                for name in names:
                    file.write(f'backend {name}\n    stick-table type {kinds[name]} size {SIZE} expire {LIFE} store gpc0,bytes_in_cnt,gpc1_rate(5s)\n')
            key = {name: {'integer': str, 'ip': '10.0.0.{}'.format, 'string len 8': 'key{}'.format}[kinds[name].split(' size')[0]] for name in names}
            moments = sorted(draw.sample(range(2 * LIFE), 1500))
            script = ''.join(f'{moment} cmd set table {name} key {key[name](draw.randrange(30))} data.gpc0 {draw.randrange(9)}\n'
                             for moment, name in ((moment, draw.choice(names)) for moment in moments))
            now = 2 * LIFE
            show = '; '.join(f'show table {name}' for name in names)
            puts = ''.join(f'{{}} cmd set table {name} key {key[name](100 + number)}\n' for number in range(4) for name in names)
            asks = f'{{0}} cmd {show}\n' + puts.replace('{}', '{0}') + f'{{0}} cmd {show}\n'
            whole = replayed(room, script + asks.format(now), *words)
            shown = listings_of(whole)
            first, last = shown[:len(names)], shown[len(names):]
            answers = {f'show table {name}': part + '\n' for name, part in zip(names, first)}
            with open(os.path.join(room, 'saved'), 'w', encoding='utf-8') as file:
                file.write(HEAD + saved_of(answers, *names))
            again = replayed(room, asks.format(LIFE), '--load', os.path.join(room, 'saved'), *words)
            shown = listings_of(again)
            assert shown[:len(names)] == first, (seed, turn, 'rows')
            assert shown[len(names):] == last, (seed, turn, 'what goes first')


TRIALS = [a_listing_becomes_lines, entries_stand_as_the_stats_socket_tells, what_can_not_be_saved_is_told, a_restart_keeps_entries,
          a_crash_leaves_the_file_of_before, a_bad_file_lets_nothing_listen, random_tables_are_the_same]
