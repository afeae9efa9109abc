"""Trials of the running program's command socket: clients that say or read nothing, several at once, its file and its mode."""
import concurrent.futures
import contextlib
import os
import re
import select
import socket
import stat
import time

from lib.calls import ADMITTED, ended_after
from lib.proxy import PATIENCE, TABLE, TRACK, FarServer, Proxy, Server, closed_after, echoes, hears_end, read_all, wait_for

# How soon a client is answered beside others, in seconds.
SOON = 1
LARGE = 'stick-table type ip size 100k store gpc0'
# The time of a client that says nothing, in seconds, and when it is closed at the latest on a machine that is busy: well before the 10
# seconds that it has where nothing is said of them.
SILENT_FOR, AT_THE_LATEST = 0.5, 6
# Some 400,000 bytes of a listing: more than the buffers of a Unix socket hold.
ROWS = 8_000


def is_answered(proxy):
    """Whether a client that comes now is answered soon."""
    with contextlib.suppress(TimeoutError):
        return proxy.command('show table\n', SOON).startswith('# table: www')
    return False


def an_idle_client_shuts_nobody_out():
    """Beside a client of the command socket that says nothing, and one that has sent half a line, another is answered."""
    with Server(echoes) as server, Proxy(server.port, [TABLE, TRACK]) as proxy, proxy.command_client():
        assert is_answered(proxy), 'beside one that says nothing'
        with proxy.command_client() as half:
            half.sendall(b'show ta')
            assert is_answered(proxy), 'beside one in the middle of a line'


def an_idle_client_keeps_no_program():
    """With --stop-after, a program ends beside a client of the command socket that says nothing."""
    with Server(echoes) as server, Proxy(server.port, [TABLE, TRACK], '--stop-after', '1', threads=2) as proxy, proxy.command_client():
        with proxy.connect() as client:
            client.shutdown(socket.SHUT_WR)
            read_all(client)
        wait_for('it has ended', lambda: proxy.program.poll() is not None, 2)
        ended_after(proxy, ADMITTED)


def asks_on(proxy):
    """Whether a client that asks again and again is answered for three times its time. None where this machine stood still for so long
    that the client may have had its time."""
    with proxy.command_client() as asking:
        began = time.monotonic()
        spoke = began
        while spoke < began + 3 * SILENT_FOR:
            asks = time.monotonic()
            try:
                asking.sendall(b'show table u\n')
                answer = asking.recv(100)
            except OSError:
                answer = b''
            if answer != b'No such table.\n\n':
                return None if answer == b'' and time.monotonic() > spoke + SILENT_FOR else False
            spoke = asks
            time.sleep(0.1)
    return True


def a_silent_client_of_the_socket_has_its_time():
    """With --timeout-socket 500ms a client of the command socket that says nothing is closed after that and no sooner, and one that
    doesn't read its long listing too; one that goes on to ask stays."""
    with Server(echoes) as server, Proxy(server.port, [LARGE, TRACK], '--timeout-socket', '500ms') as proxy:
        proxy.fill(ROWS)
        with proxy.command_client() as deaf:
            deaf.sendall(b'show table www\n')
            assert select.select([deaf], [], [], PATIENCE)[0], 'the listing begins'
            began = time.monotonic()
            with proxy.command_client() as silent:
                closed_after(silent)
                took = time.monotonic() - began
            assert SILENT_FOR <= took < AT_THE_LATEST, f'one that says nothing is closed after {took:.3f} s'
            assert hears_end(deaf, AT_THE_LATEST), 'one that reads nothing is there'
        tries = [asks_on(proxy)]
        while tries[-1] is None and len(tries) < 10:
            tries.append(asks_on(proxy))
        assert tries[-1], f'one that asks is closed: {tries}'


def one_that_reads_slowly_holds_nobody_up():
    """A client that reads the first bytes of a long listing alone holds up no other; then it gets the rest."""
    with Server(echoes) as server, Proxy(server.port, [LARGE, TRACK]) as proxy:
        proxy.fill(ROWS)
        with proxy.command_client() as slow:
            slow.sendall(b'show table www\n')
            slow.shutdown(socket.SHUT_WR)
            first = slow.recv(10)
            for _ in range(5):
                assert is_answered(proxy), 'another is answered'
            assert (first + read_all(slow)).count(b'0x0:') == ROWS, 'each row of the listing'


def two_clients_at_once():
    """With --socket-clients 2, two clients are answered in turn while both stay, and a third waits until one of them ends."""
    with Server(echoes) as server, Proxy(server.port, [TABLE, TRACK], '--socket-clients', '2') as proxy:
        with proxy.command_client() as first, proxy.command_client() as second:
            for client in (first, second, first, second):
                client.sendall(b'show table u\n')
                assert client.recv(100) == b'No such table.\n\n'
            with proxy.command_client() as third:
                third.sendall(b'show table u\n')
                third.settimeout(0.3)
                with contextlib.suppress(TimeoutError):
                    raise AssertionError(f'a third is answered: {third.recv(100)}')
                first.close()
                third.settimeout(SOON)
                assert third.recv(100) == b'No such table.\n\n', 'one has ended'


def commands_of_several_settle():
    """Four clients at once set, list and clear entries while connections come: each is answered as by itself, and in the end
    the table is settled, with all of these calls."""
    words = ['--socket-clients', '4', '--shards', '4', '--stop-after', '100']
    with Server(echoes) as server, Proxy(server.port, [TABLE.replace('store ', 'store gpc0,'), TRACK], *words, threads=4) as proxy:
        def ask(number):
            for turn in range(25):
                key = f'10.{number}.0.{turn}'
                said = proxy.command(f'set table www key {key} data.gpc0 {turn}\nshow table www key {key}\nclear table www key {key}\n')
                assert re.fullmatch(rf'\n# table: .*\n0x0: key={key} use=0 .*gpc0={turn} .*\n\n\n', said), said

        def visit(number):
            with proxy.connect(f'127.0.0.{number % 7 + 1}') as client:
                client.sendall(b'hello')
                client.shutdown(socket.SHUT_WR)
                assert read_all(client) == b'hello'
        with concurrent.futures.ThreadPoolExecutor(8) as pool:
            asked = [pool.submit(ask, number) for number in range(4)]
            list(pool.map(visit, range(99)))
            for one in asked:
                one.result()
        visit(99)
        # A listing asks all four shards, of one key too.
        ended_after(proxy, 100 * ADMITTED + 4 * 25 * (1 + 4 + 1), shards=4)


def untouched(path):
    """Leaves the program's socket where it is."""
    return contextlib.nullcontext(path)


def removed(path):
    """Removes the program's socket."""
    os.unlink(path)
    return contextlib.nullcontext()


@contextlib.contextmanager
def replaced_by_a_socket(path):
    """Puts another program's socket in place of the program's."""
    with socket.socket(socket.AF_UNIX) as other:
        other.bind(path + '-other')
        other.listen()
        os.rename(path + '-other', path)
        yield


@contextlib.contextmanager
def replaced_by_a_file(path):
    """Puts a plain file in place of the program's socket."""
    with open(path + '-other', 'w', encoding='ascii') as file:
        file.write('kept')
    os.rename(path + '-other', path)
    yield


# What is done with the socket's file meanwhile, and whether there is one at its path in the end.
MEANWHILE = [(untouched, False), (removed, False), (replaced_by_a_socket, True), (replaced_by_a_file, True)]


def another_file_at_the_path_is_kept():
    """As it ends, the program removes the file of its socket, and no other that has been put in its place."""
    faults = []
    for meanwhile, is_kept in MEANWHILE:
        with FarServer() as server, Proxy(server.port, [TABLE, TRACK], '--stop-after', '1', threads=1) as proxy:
            with meanwhile(proxy.path):
                client, far = server.joined(proxy)
                client.close()
                far.close()
                status, _, said = proxy.ended()
                if status != 0 or os.path.lexists(proxy.path) != is_kept:
                    faults.append(f'{meanwhile.__name__}: {"not " * is_kept}there, status {status}: {said}'.replace('not there', 'gone'))
    assert not faults, faults


def the_mode_of_the_socket():
    """The socket is its user's alone, whatever the mask, and has the mode that --socket-mode says."""
    faults = []
    for words, umask, wanted in (([], 0, 0o600), ([], 0o022, 0o600), (['--socket-mode', '660'], 0o077, 0o660),
                                 (['--socket-mode', '660'], 0, 0o660), (['--socket-mode', '600'], 0o022, 0o600)):
        try:
            with Server(echoes) as server, Proxy(server.port, [TABLE, TRACK], *words, threads=1, umask=umask) as proxy:
                mode = stat.S_IMODE(os.stat(proxy.path).st_mode)
                assert mode == wanted, f'{mode:o}'
        except AssertionError as fault:
            faults.append(f'{" ".join(words) or "no option"}, mask {umask:03o}: {str(fault).splitlines()[0]}')
    assert not faults, faults


TRIALS = [an_idle_client_shuts_nobody_out, an_idle_client_keeps_no_program, a_silent_client_of_the_socket_has_its_time,
          one_that_reads_slowly_holds_nobody_up, two_clients_at_once, commands_of_several_settle, another_file_at_the_path_is_kept,
          the_mode_of_the_socket]
