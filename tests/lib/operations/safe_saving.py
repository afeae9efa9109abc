"""Trials of saved files that can't be lost, cut or led astray: how they are written, how often, and what of them is loaded."""
import contextlib
import os
import signal
import stat
import subprocess
import tempfile
import time

from lib.operations.base import asked
from lib.operations.saving import TABLE, left_of, said_by, stopped
from lib.operations.watched import Watched
from lib.places import stickd
from lib.proxy import PATIENCE, FarServer, Server, greets, wait_for

FIRST = '# saved by stickd, and whole if its last line says how many entries it has\n'


def read(path):
    with open(path, encoding='utf-8') as file:
        return file.read()


def write(path, text):
    with open(path, 'w', encoding='utf-8') as file:
        file.write(text)
    return path


def ran(*words, text='', patience=PATIENCE):
    """What the program says to words: its status, and what it writes on standard output and standard error."""
    done = subprocess.run([stickd(), *words], input=text, capture_output=True, text=True, timeout=patience, check=False)
    return done.returncode, done.stdout, done.stderr


@contextlib.contextmanager
def room_of(*lines):
    """A folder with a configuration, in which a table has these lines."""
    with tempfile.TemporaryDirectory() as room:
        write(os.path.join(room, 'conf'), 'listen www\n    bind 127.0.0.1:1\n    ' + '\n    '.join(lines) + '\n    server one 127.0.0.1:2\n')
        yield room


def started(room, *words):
    """What a start says that fails: its status and its words on standard error."""
    path = os.path.join(room, 'commands')
    done = ran('run', os.path.join(room, 'conf'), '--socket', path, '--threads', '1', *words)
    assert not os.path.exists(path), done
    return done[0], done[2]


def stop_of(proxy, *words):
    """What `stickd stop` says of the program: its status, and its words."""
    done = ran('stop', '--stats-socket', proxy.stats, *words, patience=3 * PATIENCE)
    return done[0], done[1] + done[2]


def entries_of(path):
    """The commands of a saved file, once it is seen to be whole."""
    lines = read(path).splitlines()
    commands = [line.split(' cmd ')[1] for line in lines if not line.startswith('#')]
    assert lines[0] + '\n' == FIRST and lines[-1] == f'# entries: {len(commands)}', lines
    return commands


# ---- how a file is written

def nothing_is_written_through_a_link():
    """A link beside the file, or a FIFO, stays as it is, and is no hindrance; of one at the file's own path the link is replaced, and
    what it leads to isn't written. What lay there gives the new file neither its mode nor its readers."""
    with tempfile.TemporaryDirectory() as room, Server(greets) as server:
        path, other, linked = (os.path.join(room, name) for name in ('saved', 'other', 'linked'))
        write(other, 'precious\n')
        os.symlink(other, path + '.new')
        os.symlink(other, linked)
        write(path, '')
        os.chmod(path, 0o666)
        for name in (path, linked):
            with Watched(server.port, [TABLE], '--save', name) as proxy:
                assert proxy.command('set table www key 10.0.0.1 data.gpc0 7') == '\n'
                stopped(proxy)
            assert entries_of(name) == ['set table www key 10.0.0.1 data.gpc0 7'], read(name)
            found = os.lstat(name)
            assert stat.S_ISREG(found.st_mode) and found.st_mode & 0o777 == 0o600, oct(found.st_mode)
        assert read(other) == 'precious\n' and os.path.islink(path + '.new')
        os.remove(path + '.new')
        os.mkfifo(path + '.new')
        with Watched(server.port, [TABLE], '--save', path) as proxy:
            stopped(proxy)
        assert entries_of(path) == []
        assert sorted(os.listdir(room)) == ['linked', 'other', 'saved', 'saved.new']


def a_start_tries_the_file():
    """A folder, a FIFO, a device, a folder that is missing, and no name: the start fails at once, with the reason and status 1."""
    with room_of(TABLE) as room:
        fifo = os.path.join(room, 'fifo')
        os.mkfifo(fifo)
        no_file = 'no file lies there, but a FIFO, a device or a socket'
        missing = os.path.join(room, 'none', 'saved')
        for path, reason in ((room, 'is a directory'), (fifo, no_file), ('/dev/null', no_file), (missing, 'No such file or directory (os error 2)')):
            status, said = started(room, '--save', path)
            assert status == 1 and said.startswith(f"<3>stickd: {path} can't be written: ") and reason in said, (path, status, said)
        assert started(room, '--save', '')[0] == 1
        assert sorted(os.listdir(room)) == ['conf', 'fifo']


def the_tables_are_saved_each_time():
    """With --save-every a killed program leaves what its tables held a moment before; without --save that time is refused."""
    with tempfile.TemporaryDirectory() as room, Server(greets) as server:
        path = os.path.join(room, 'saved')
        with Watched(server.port, [TABLE], '--save', path, '--save-every', '200ms') as proxy:
            assert proxy.command('set table www key 10.0.0.1 data.gpc0 1') == '\n'
            wait_for('it is saved', lambda: os.path.exists(path) and len(entries_of(path)) == 1)
            assert proxy.command('set table www key 10.0.0.2 data.gpc0 2') == '\n'
            wait_for('it is saved again', lambda: len(entries_of(path)) == 2)
            proxy.program.send_signal(signal.SIGKILL)
            proxy.ended()
        assert len(entries_of(path)) == 2
        with room_of(TABLE) as other:
            assert started(other, '--save-every', '1s') == (2, 'stickd: --save-every wants --save, which names the file\n')


def a_drain_saves_as_it_begins():
    """Who is killed while it drains has saved what its tables held as that began."""
    with tempfile.TemporaryDirectory() as room, FarServer() as server:
        path = os.path.join(room, 'saved')
        with Watched(server.port, [TABLE], '--save', path, '--drain', '1m') as proxy:
            server.joined(proxy)
            assert proxy.command('set table www key 10.0.0.1 data.gpc0 1') == '\n'
            assert proxy.told('shutdown frontend www').strip() == ''
            wait_for('it is saved', lambda: os.path.exists(path))
            assert proxy.program.poll() is None
            proxy.program.send_signal(signal.SIGKILL)
            proxy.ended()
        assert len(entries_of(path)) == 1


def a_save_that_fails_is_told_by_stop():
    """`stickd stop` ends with status 1 where the tables couldn't be saved, and says so; with 0 where they were, or needn't be."""
    with tempfile.TemporaryDirectory() as room, Server(greets) as server:
        folder = os.path.join(room, 'folder')
        os.mkdir(folder)
        with Watched(server.port, [TABLE], '--save', os.path.join(folder, 'saved')) as proxy:
            os.rename(folder, folder + '-gone')
            assert stop_of(proxy) == (1, f"stickd: the program at {proxy.stats} has stopped, and couldn't save its tables\n")
            assert proxy.ended()[0] == 1
        with Watched(server.port, [TABLE]) as proxy:
            assert stop_of(proxy) == (0, '')
            assert proxy.ended()[0] == 0


def what_is_asked_for_is_written_whole():
    """`ctl save --to FILE` writes as `--save` does; where nobody answers, or FILE is none, what lies there stays."""
    answers = {'show table': '# table: www, type: ip, size:10, used:1\n\n',
               'show table www': '# table: www, type: ip, size:10, used:1\n0x0: key=10.0.0.1 use=0 exp=9 gpc0=1\n\n'}
    with tempfile.TemporaryDirectory() as room:
        path = os.path.join(room, 'saved')
        with said_by(answers) as commands:
            assert asked(commands, '--to', path, 'save') == (0, '', '')
            assert entries_of(path) == ['set table www key 10.0.0.1 data.gpc0 1'] and os.stat(path).st_mode & 0o777 == 0o600
            status, written, said = asked(commands, '--to', '/dev/null', 'save')
            assert (status, written) == (1, '') and '/dev/null' in said and stat.S_ISCHR(os.stat('/dev/null').st_mode), said
            assert asked(commands, '--to', path, 'show', 'table') == (2, '', "stickd: --to is for 'save' alone\n")
        before = read(path)
        assert asked(commands, '--to', path, 'save')[0] == 1
        assert read(path) == before and os.listdir(room) == ['saved']


# ---- what of a file is loaded

def a_cut_file_is_refused():
    """Wherever a saved file is cut, but for its last line end, it is refused with its line, and nothing of it is loaded; so is one from
    whose midst a line is gone. A file without that first line is loaded, with a warning."""
    with room_of(TABLE) as room:
        conf, path = os.path.join(room, 'conf'), os.path.join(room, 'saved')
        lines = ''.join(f'9000 cmd set table www key 10.0.0.{number} data.gpc0 {number}\n' for number in range(1, 13))
        whole = FIRST + '# a note\n' + lines + '# entries: 12\n'
        for length in [*range(1, 90), *range(90, len(whole) - 1, 7), len(whole) - 2]:
            write(path, whole[:length])
            status, written, said = ran('replay', conf, '--load', path, text='0 cmd show table\n')
            number = whole[:length].rstrip('\n').count('\n') + 1
            assert (status, written) == (1, '') and said.startswith(f'stickd: {path}: line {number}: '), (length, status, said)
        for text in (whole, whole[:-1]):
            status, written, said = ran('replay', conf, '--load', write(path, text), text='0 cmd show table\n')
            assert (status, said) == (0, '') and 'used:12' in written, (status, said)
        write(path, whole.replace('9000 cmd set table www key 10.0.0.7 data.gpc0 7\n', ''))
        assert ran('replay', conf, '--load', path)[::2] == (1, f'stickd: {path}: line 14: the last line says 12 entries, and the file has 11\n')
        with Server(greets) as server, Watched(server.port, [TABLE], '--load', write(path, lines)) as proxy:
            assert 'used:12' in proxy.command('show table www')
            stopped_said = stop_and_say(proxy)
        assert f"warning: {path} doesn't say how many entries it has" in stopped_said, stopped_said


def stop_and_say(proxy):
    """Stops it, and answers what it said on standard error."""
    return stopped(proxy)[2]


def a_restart_skips_what_no_longer_fits():
    """A datum that the table no longer stores keeps a program from starting, with the line, but for --load-lenient: that loads all
    else, and says which lines it skipped. `check --load` tells it before."""
    with room_of(TABLE) as room:
        conf, path = os.path.join(room, 'conf'), os.path.join(room, 'saved')
        bad = [f'9 cmd set table www key 10.0.1.{number} data.gpt0 1\n' for number in range(1, 13)]
        write(path, FIRST + '300000 cmd set table www key 10.0.0.1 data.gpc0 1\n' + ''.join(bad) + '9 cmd set table gone key 1\n# entries: 14\n')
        refusal = "line 3: 'set table www key 10.0.1.1 data.gpt0 1' is answered 'Data type not stored in this table.'"
        assert started(room, '--load', path) == (1, f'<3>stickd: {path}: {refusal}\n')
        status, written, said = ran('check', conf, '--load', path)
        assert status == 1 and f'warning: {path}: {refusal}' in said and '13 lines are skipped in all' in said, (written, said)
        with Server(greets) as server, Watched(server.port, [TABLE], '--load', path, '--load-lenient') as proxy:
            listing = proxy.command('show table www')
            said = stop_and_say(proxy)
        assert 'used:1' in listing and 'key=10.0.0.1' in listing, listing
        assert f'warning: {path}: {refusal}; the line is skipped\n' in said and f'{path}: 13 lines are skipped in all\n' in said, said


def an_entry_without_a_place_is_told():
    """Of 1,000 entries of a full table of 1,000 places all come back that their shards have places for, whatever --purge says and with
    nopurge, and the others are told by their table, their number and the first line; `check --load` says it before."""
    for words in ('', ' nopurge'):
        with room_of(f'stick-table type ip size 1000 expire 10m{words} store gpc0') as room:
            conf, path = os.path.join(room, 'conf'), os.path.join(room, 'saved')
            keys = [f'10.{number // 250}.{number % 250}.1' for number in range(1000)]
            write(path, FIRST + ''.join(f'{number + 9} cmd set table www key {key}\n' for number, key in enumerate(keys)) + '# entries: 1000\n')
            for kept in (['--shards', '1'], ['--shards', '2'], ['--shards', '16'], ['--shards', '16', '--purge', '1024']):
                shards = int(kept[1])
                fell = [sum(shard_of(key, shards) == shard for key in keys) for shard in range(shards)]
                places = [1000 // shards + (shard < 1000 % shards) for shard in range(shards)]
                lost = sum(max(0, count - room_for) for count, room_for in zip(fell, places))
                status, written, said = ran('replay', conf, *kept, '--load', path, text='600000 cmd show table\n')
                assert status == 0 and f'used:{1000 - lost}\n' in written, (kept, lost, written, said)
                told = f'stickd: warning: {path}: table www: entries not loaded, as their shards are full: {lost}, the first on line '
                assert said == '' if lost == 0 else said.startswith(told) and said.count('\n') == 1, (kept, lost, said)
                checked = ran('check', conf, '--load', path, '--shards', kept[1])
                assert checked[0] == (1 if lost else 0) and (f'full: {lost}, ' in checked[2] if lost else checked[1].endswith(f'{path} fits\n')), checked


def shard_of(key, shards):
    """The shard of an address: FNV-1a of its bytes, as the table keeps them."""
    value = 0xcbf29ce484222325
    for byte in (int(part) for part in key.split('.')):
        value = (value ^ byte) * 0x100000001b3 % 2 ** 64
    return value % shards


def entries_go_on_with_their_time():
    """A file of before, whose first line says nothing of a last one, is loaded as it was."""
    with tempfile.TemporaryDirectory() as room, Server(greets) as server:
        path = write(os.path.join(room, 'saved'), '# saved by stickd: the ms that an entry has left, and the command that makes it\n'
                     '# not saved: rates, and which connections hold an entry\n300000 cmd set table www key 10.0.0.1 data.gpc0 1\n')
        with Watched(server.port, [TABLE], '--load', path, '--save', path) as proxy:
            left = left_of(proxy.command('show table www').splitlines()[1:-1])['key=10.0.0.1']
            assert 300_000 - 60_000 < left <= 300_000, left
            stopped(proxy)
        assert len(entries_of(path)) == 1


TRIALS = [nothing_is_written_through_a_link, a_start_tries_the_file, the_tables_are_saved_each_time, a_drain_saves_as_it_begins,
          a_save_that_fails_is_told_by_stop, what_is_asked_for_is_written_whole, a_cut_file_is_refused, a_restart_skips_what_no_longer_fits,
          an_entry_without_a_place_is_told, entries_go_on_with_their_time]
