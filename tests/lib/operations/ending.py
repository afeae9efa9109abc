"""Trials of an orderly end: by the stats socket, by `stickd stop`, and by a signal that was blocked."""
import contextlib
import os
import re
import signal
import socket
import subprocess
import tempfile
import threading
import time

from lib.calls import ADMITTED, calls_of_clients, ended_after
from lib.operations.handing import heard, notified
from lib.operations.watched import Watched, watched
from lib.places import stickd
from lib.proxy import PATIENCE, TABLE, TRACK, FarServer, Server, free_port, greets, is_closed, is_greeted, read_all, wait_for
from lib.shims import build_shim

# The number of a thread that serves connections, behind those that answer commands, report and keep the tables.
SOME_WORKER = 20
# Whoever is told of the program has each shard of its tables asked, as `stickd stop` is, which asks for its process.
TOLD = 1


def stop(path, *words):
    """What `stickd stop` says: its status, and its words."""
    done = subprocess.run([stickd(), 'stop', '--stats-socket', path, *words], stdin=subprocess.DEVNULL, capture_output=True, text=True,
                          timeout=3 * PATIENCE, check=False)
    return done.returncode, done.stdout + done.stderr


def newcomers_before_refusals(proxy, within):
    """Waits until a newcomer gets no connection. How many came before, each of which may have been accepted."""
    came = 0

    def is_refused():
        nonlocal came
        with contextlib.suppress(OSError):
            proxy.connect().close()
            came += 1
            return False
        return True
    wait_for('newcomers are refused', is_refused, within=within)
    return came


def has_ended_well(proxy, least, most=None):
    """That it ends with status 0, says that no reference is out and how many calls its clients made, and leaves no socket behind."""
    ended_after(proxy, least, most)
    assert not os.path.exists(proxy.path) and not os.path.exists(proxy.stats)


def a_frontend_is_shut_down():
    """Behind `shutdown frontend www` newcomers are refused at once, who is open goes on, and behind the last one it ends."""
    with FarServer() as server, Watched(server.port, [TABLE, TRACK], '--drain', '1m') as proxy:
        client, far = server.joined(proxy)
        assert proxy.told('shutdown frontend www').strip() == ''
        came = newcomers_before_refusals(proxy, within=1)
        assert proxy.info()['Stopping'] == '1'
        client.sendall(b'still')
        assert far.recv(9) == b'still' and proxy.program.poll() is None
        client.close()
        far.close()
        has_ended_well(proxy, ADMITTED + TOLD, (1 + came) * ADMITTED + TOLD)


def stop_waits_for_the_end():
    """`stickd stop` comes back once the program has ended, with status 0; who is open still after the drain is closed."""
    with FarServer() as server, Watched(server.port, [TABLE, TRACK]) as proxy:
        client, _ = server.joined(proxy)
        began = time.monotonic()
        assert stop(proxy.stats, '--drain', '2s') == (0, '')
        assert 1.5 < time.monotonic() - began < 12
        assert is_closed(client)
        has_ended_well(proxy, ADMITTED + TOLD)


def an_idle_program_stops_at_once():
    """Without connections the end comes within a second, on one thread and on eight."""
    for threads in (1, 8):
        with watched(threads=threads) as proxy:
            began = time.monotonic()
            assert stop(proxy.stats) == (0, '')
            assert time.monotonic() - began < 3
            has_ended_well(proxy, TOLD)


def who_can_not_be_stopped():
    """Nobody at the path, and the command socket, are told, with status 1; a bad time with status 2."""
    with watched() as proxy:
        status, said = stop(f'{proxy.room.name}/none')
        assert status == 1 and "can't be reached: No such file" in said, said
        assert stop(proxy.path) == (1, f'stickd: {proxy.path} is no stats socket of stickd\n')
        assert stop(proxy.stats, '--drain', 'x')[0] == 2
        assert proxy.program.poll() is None


@contextlib.contextmanager
def said_to_stop(end):
    """A stats socket that tells of process 1, takes `stop`, and answers each later look as it is told: by bytes, or by going away."""
    with tempfile.TemporaryDirectory() as room, socket.socket(socket.AF_UNIX) as listener:
        path = os.path.join(room, 'stats')
        listener.bind(path)
        listener.listen()

        def serve():
            looks = 0
            with contextlib.suppress(OSError):
                while True:
                    client, _ = listener.accept()
                    with client:
                        line = read_all(client).decode().strip()
                        looks += line == ''
                        if line:
                            client.sendall(b'Pid: 1\n\n' if line == 'show info' else b'\n')
                        elif looks < 3:
                            client.sendall(b'Unknown command.\n\n')
                        else:
                            end(path, listener, client)

        threading.Thread(target=serve, daemon=True).start()
        yield path


def stop_waits_by_the_socket():
    """Whatever process has the number that the program tells, as one of another namespace may, the program is waited for by its socket:
    by its last word and the end of that connection, or until the socket's file is gone."""
    def goes(path, listener, _client):
        os.unlink(path)
        listener.close()

    def dies(_path, listener, _client):
        listener.close()

    def says(words, after):
        def say(_path, _listener, client):
            client.sendall(words)
            time.sleep(after)
        return say

    def stands(_path, _listener, client):
        time.sleep(PATIENCE)

    for end, status, said in ((goes, 0, ''), (says(b'Stopped.\n', 1), 0, ''),
                              (says(b'Stopped, but not saved.\n', 0), 1, "stickd: the program at {} has stopped, and couldn't save its tables\n"),
                              (dies, 1, 'stickd: the program at {} ended, and not in order\n')):
        with said_to_stop(end) as path:
            began = time.monotonic()
            assert stop(path) == (status, said.format(path)), (said, stop)
            assert (1 if 'says' in end.__qualname__ and status == 0 else 0) <= time.monotonic() - began < 8
    with said_to_stop(stands) as path:
        assert stop(path, '--timeout', '1s') == (1, f'stickd: the program at {path} has said nothing for 1000 ms\n')


def who_stands_still_is_given_up():
    """Of a program that stands still `ctl` and `stop` say so once their --timeout is over, and end with status 1."""
    with watched() as proxy:
        assert proxy.told('show table').startswith('# table: www')
        with proxy.stopped():
            for path, words in ((proxy.path, ('ctl', '--socket', proxy.path, '--timeout', '1s', 'show', 'table')),
                                (proxy.stats, ('ctl', '--socket', proxy.stats, '--timeout', '1s', 'save')),
                                (proxy.stats, ('stop', '--stats-socket', proxy.stats, '--timeout', '1s'))):
                began = time.monotonic()
                done = subprocess.run([stickd(), *words], stdin=subprocess.DEVNULL, capture_output=True, text=True, timeout=PATIENCE, check=False)
                told = f'stickd: the program at {path} has said nothing for 1000 ms\n'
                assert (done.returncode, done.stdout, done.stderr) == (1, '', told), done
                assert 0.9 < time.monotonic() - began < 8
        assert stop(proxy.stats, '--timeout', 'x')[0] == 2
        assert proxy.program.poll() is None


def blocked(kind):
    """Has the program begin with this signal blocked."""
    return lambda: signal.pthread_sigmask(signal.SIG_BLOCK, [kind])


class Blocking(Watched):
    """The program at work, as `env --block-signal` starts it."""

    kind = signal.SIGTERM

    def limit(self):
        blocked(self.kind)()


class Interrupted(Blocking):
    kind = signal.SIGINT


def a_blocked_signal_drains():
    """SIGTERM, or SIGINT, that was blocked has it stop as `shutdown frontend` does; SIGTERM that wasn't ends it at once."""
    for made in (Blocking, Interrupted):
        with Server(greets) as server, made(server.port, [TABLE, TRACK], '--drain', '1m') as proxy:
            with proxy.connect() as client:
                assert is_greeted(client)
                proxy.program.send_signal(made.kind)
                came = newcomers_before_refusals(proxy, within=2)
                client.sendall(b'still')
                assert proxy.program.poll() is None
            has_ended_well(proxy, ADMITTED, (1 + came) * ADMITTED)
    with watched() as proxy:
        proxy.program.send_signal(signal.SIGTERM)
        assert proxy.ended()[0] == -signal.SIGTERM


def killed_at_any_moment_it_starts_again():
    """The sockets' files that a killed program leaves are replaced at the next start."""
    with watched() as proxy:
        for pause in (0, 0.02, 0.1):
            with contextlib.suppress(OSError), proxy.connect() as client:
                is_greeted(client)
            time.sleep(pause)
            proxy.killed()
            assert os.path.exists(proxy.stats)
            proxy.start()
            assert proxy.told('show table').startswith('# table: www')


def clients_of_all_threads_are_drained():
    """200 open connections on 4 threads are closed behind the drain, and are counted, before it ends."""
    with FarServer() as server, Watched(server.port, [TABLE, TRACK], '--drain', '1s', '--report', '10m', threads=4) as proxy:
        pairs = [server.joined(proxy) for _ in range(200)]
        began = time.monotonic()
        assert proxy.told('shutdown frontend www').strip() == ''
        status, written, said = proxy.ended()
        assert 0.9 < time.monotonic() - began < 8
        calls = calls_of_clients(written, said, time.monotonic() - proxy.began)
        # The report at the end is one more that is told.
        assert status == 0 and calls == {'www': 200 * ADMITTED + TOLD}, (status, written, said)
        assert re.search(r'\b200 (?:closed|drained)', said) or 'drained' in said, said
        for client, far in pairs:
            assert read_all_or_reset(client) and read_all_or_reset(far)


def read_all_or_reset(stream):
    """Whether a socket comes to its end, in order or by a reset."""
    with contextlib.suppress(ConnectionResetError):
        return read_all(stream) == b''
    return True


@contextlib.contextmanager
def full_pipe():
    """A pipe without room that nobody reads: both ends, that for reading first."""
    reader, writer = os.pipe()
    os.set_blocking(writer, False)
    for size in (4096, 1):
        with contextlib.suppress(BlockingIOError):
            while True:
                os.write(writer, b'.' * size)
    os.set_blocking(writer, True)
    try:
        yield reader, writer
    finally:
        os.close(reader)
        os.close(writer)


class Unread(Blocking):
    """The program at work with a standard error that nobody reads."""

    def __init__(self, errors, *words, **others):
        self.errors = errors
        super().__init__(*words, **others)


def who_reads_nothing_stops_nothing():
    """Beside a full pipe as its standard error the program starts, feeds the watchdog, is stopped by the command and by a blocked SIGTERM,
    and saves its tables, each in its time."""
    for is_signal in (False, True):
        with full_pipe() as (_, writer), Server(greets) as server, notified(False) as (environment, stream), \
                tempfile.TemporaryDirectory(prefix='stickd-') as room:
            saved = os.path.join(room, 'saved')
            environment = {**os.environ, **environment, 'WATCHDOG_USEC': '400000'}
            with Unread(writer, server.port, [TABLE, TRACK], '--save', saved, '--report', '1s', '--log-rejected',
                        environment=environment) as proxy:
                with proxy.connect() as client:
                    assert is_greeted(client)
                time.sleep(2.5)
                stream.setblocking(False)
                with contextlib.suppress(BlockingIOError):
                    while stream.recv(65536):
                        pass
                stream.settimeout(PATIENCE)
                heard(stream, 'WATCHDOG=1')
                if is_signal:
                    proxy.program.send_signal(signal.SIGTERM)
                else:
                    assert stop(proxy.stats)[0] == 0
                assert proxy.program.wait(PATIENCE) == 0
            with open(saved, encoding='utf-8') as lines:
                assert 'key 127.0.0.1' in lines.read()


def lost_lines_are_counted():
    """Lines for which there was no room are told by their number, once there is."""
    with full_pipe() as (reader, writer), Server(greets) as server:
        with Unread(writer, server.port, [TABLE, TRACK], '--report', '1s') as proxy:
            time.sleep(3.5)
            said, end = '', time.monotonic() + PATIENCE
            while 'lines lost' not in said:
                assert time.monotonic() < end, said[-200:]
                said += os.read(reader, 65536).decode()
            assert int(re.search(r'(\d+) lines lost', said)[1]) >= 3, said[-200:]
            assert stop(proxy.stats)[0] == 0


def monitors_keep_nobody_from_stopping_it():
    """While as many clients as there are places hold them, each with prompts, one more is answered a line, and a stop is heard; one that
    says nothing there is let go within some seconds."""
    for words, count in (((), 4), (('--stats-clients', '2'), 2)):
        with Server(greets) as server, Watched(server.port, [TABLE, TRACK], *words) as proxy:
            monitors = [proxy.stats_client() for _ in range(count)]
            for monitor in monitors:
                monitor.sendall(b'prompt\n')
                assert monitor.recv(100).endswith(b'> ')
            with proxy.stats_client() as client:
                client.sendall(b'prompt;show info\n')
                assert b'Name: stickd' in read_all(client)
            with proxy.stats_client() as client:
                began = time.monotonic()
                with contextlib.suppress(OSError):
                    read_all(client)
                assert time.monotonic() - began < 6
            began = time.monotonic()
            assert stop(proxy.stats)[0] == 0
            assert time.monotonic() - began < 10 and proxy.program.wait(PATIENCE) == 0
            for monitor in monitors:
                monitor.close()


def a_stop_takes_the_programs_own_time():
    """`stickd stop` without a time goes by the program's --drain."""
    with FarServer() as server, Watched(server.port, [TABLE, TRACK], '--drain', '2s') as proxy:
        client, _ = server.joined(proxy)
        began = time.monotonic()
        assert stop(proxy.stats) == (0, '')
        assert 1.5 < time.monotonic() - began < 12
        assert is_closed(client)


def a_second_stop_hastens():
    """A second `stickd stop` without a time, and a SIGINT after a SIGTERM, end at once what is open; a SIGTERM that goes on waiting
    doesn't."""
    for is_signal in (False, True):
        with FarServer() as server, Both(server.port, [TABLE, TRACK], '--drain', '5m') as proxy:
            client, far = server.joined(proxy)
            if is_signal:
                proxy.program.send_signal(signal.SIGTERM)
            else:
                proxy.told('stop')
            newcomers_before_refusals(proxy, within=PATIENCE)
            time.sleep(1)
            client.sendall(b'still')
            assert far.recv(9) == b'still' and proxy.program.poll() is None
            began = time.monotonic()
            if is_signal:
                proxy.program.send_signal(signal.SIGINT)
            else:
                assert stop(proxy.stats)[0] == 0
            assert proxy.program.wait(PATIENCE) == 0 and time.monotonic() - began < 10
            assert is_closed(client)


class Both(Blocking):
    """The program at work with both signals blocked, as its launcher starts it."""

    def limit(self):
        signal.pthread_sigmask(signal.SIG_BLOCK, [signal.SIGTERM, signal.SIGINT])


def it_warns_of_signals_that_end_it():
    """Where SIGTERM isn't blocked, a start says so once, with what to do; where it is, it doesn't."""
    for made, count in ((Watched, 1), (Blocking, 0)):
        with Server(greets) as server, made(server.port, [TABLE, TRACK]) as proxy:
            with proxy.connect() as client:
                assert is_greeted(client)
            said = [line for line in proxy.killed() if 'SIGTERM' in line]
            assert len(said) == count and all('<4>stickd: warning: ' in line and 'env --block-signal' in line for line in said), said


def run_alone(*words, **others):
    """A start that has to fail: how it ended, and what it said."""
    done = subprocess.run([stickd(), 'run', *words], stdin=subprocess.DEVNULL, capture_output=True, text=True, timeout=PATIENCE,
                          check=False, **others)
    assert done.returncode == 1, done
    return done.stderr


def a_start_that_fails_leaves_no_socket():
    """Where the command socket can't be bound, the stats socket's file is gone too; what was fatal is an error for the journal."""
    with Server(greets) as server, tempfile.TemporaryDirectory(prefix='stickd-') as room:
        conf = os.path.join(room, 'conf')
        with open(conf, 'w', encoding='utf-8') as file:
            file.write(f'listen www\n bind 127.0.0.1:{free_port()}\n {TABLE}\n {TRACK}\n server one 127.0.0.1:{server.port}\n')
        said = run_alone(conf, '--threads', '1', '--socket', f'{room}/none/commands', '--stats-socket', f'{room}/stats')
        assert f"<3>stickd: {room}/none/commands can't be bound: " in said, said
        assert os.listdir(room) == ['conf'], os.listdir(room)


def a_thread_that_is_missing_fails_the_start():
    """Where a thread can't be started that would serve connections, a start says so and ends at once: nobody is served, READY=1 isn't told,
    and no socket is left."""
    with Server(greets) as server, tempfile.TemporaryDirectory(prefix='stickd-') as room, notified(True) as (environment, stream):
        conf, work = os.path.join(room, 'conf'), os.path.join(room, 'shim')
        os.mkdir(work)
        with open(conf, 'w', encoding='utf-8') as file:
            file.write(f'listen www\n bind 127.0.0.1:{free_port()}\n {TABLE}\n {TRACK}\n server one 127.0.0.1:{server.port}\n')
        shim = build_shim(work, 'refuse_thread')
        said = run_alone(conf, '--threads', '64', '--socket', f'{room}/commands',
                         env={**os.environ, **environment, 'LD_PRELOAD': shim, 'REFUSED_THREAD': str(SOME_WORKER)})
        assert "<3>stickd: a thread can't be started" in said, said
        assert sorted(os.listdir(room)) == ['conf', 'shim'], os.listdir(room)
        stream.setblocking(False)
        told = b''
        with contextlib.suppress(BlockingIOError):
            while True:
                told += stream.recv(65536)
        assert b'READY=1' not in told, told


TRIALS = [a_frontend_is_shut_down, stop_waits_for_the_end, an_idle_program_stops_at_once, who_can_not_be_stopped, stop_waits_by_the_socket,
          who_stands_still_is_given_up,
          a_blocked_signal_drains, killed_at_any_moment_it_starts_again, clients_of_all_threads_are_drained,
          who_reads_nothing_stops_nothing, lost_lines_are_counted, monitors_keep_nobody_from_stopping_it,
          a_stop_takes_the_programs_own_time, a_second_stop_hastens, it_warns_of_signals_that_end_it,
          a_start_that_fails_leaves_no_socket, a_thread_that_is_missing_fails_the_start]
