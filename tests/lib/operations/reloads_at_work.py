"""Trials of reloads beside clients: from which moment on a new version judges, on all threads; what holds across it of limits, bytes and
servers."""
import collections
import contextlib
import random
import socket
import threading
import time

from lib.headers import line
from lib.operations import headed
from lib.operations.reload_base import OFTEN, REJECT, Reloaded, Versions, named_by, names, refused, reloadable
from lib.proxy import (PATIENCE, TRACK, EchoServer, FarServer, Server, arrive, echoes, free_port, is_greeted, read_all, reject_above,
                       wait_for)

# How many clients come without a pause, how often what judges them changes, and how many each version judges at least, for how many
# seconds.
COMERS, CHANGES, JUDGED, JUDGES = 8, 20, 20, 0.1
# The limits that follow each other, how often, and how many clients of one key there are.
LIMITS, ROUNDS, CROWD = (2, 5, 1, 3), 3, 64
# How many bytes a client sends at a time, beside reloads.
BULK = 300_000


def talks(client):
    """Whether a client gets through to a server that sends back what comes."""
    with contextlib.suppress(OSError):
        if client is not None:
            client.sendall(b'+')
            return client.recv(1) == b'+'
    return False


class Crowd:
    """Threads that do one thing again and again, until they are told to stop. What failed is kept."""

    def __init__(self, count, visit):
        self.over, self.faults, self.visit = threading.Event(), [], visit
        self.threads = [threading.Thread(target=self.run, args=(number,)) for number in range(count)]

    def run(self, number):
        try:
            while not self.over.is_set():
                self.visit(number)
        except (AssertionError, OSError) as fault:
            self.faults.append(repr(fault))

    def goes_on(self):
        """That nothing has failed so far."""
        assert not self.faults, self.faults

    def __enter__(self):
        for thread in self.threads:
            thread.start()
        return self

    def __exit__(self, *_):
        self.over.set()
        for thread in self.threads:
            thread.join()


class Verdicts:
    """What judges clients, and how many each version judged that no other may have judged."""

    def __init__(self, first):
        self.lock, self.sure, self.versions = threading.Lock(), collections.Counter(), Versions((1, first))

    def told(self, verdict, began):
        """A client that began to connect at this moment was greeted or not."""
        possible = self.versions.possible(began, time.monotonic())
        assert verdict in [accepts for _, accepts in possible], (verdict, possible)
        if len(possible) == 1:
            with self.lock:
                self.sure[possible[0]] += 1

    def goes_on_with(self, proxy, accepts):
        """The next version accepts, or rejects, and judges some alone."""
        known = (len(self.versions.known) + 1, accepts)
        proxy.write(proxy.text(rules=[TRACK] if accepts else [TRACK, REJECT]))
        self.versions.goes_on_with(known, proxy.asks)
        time.sleep(JUDGES)
        wait_for(f'{known} judges', lambda: self.sure[known] >= JUDGED)


def from_the_answer_on_the_new_rules_judge():
    """16 threads and clients without a pause, while rules that accept and rules that reject follow each other: no client that connects
    after the answer is judged by the old ones."""
    verdicts = Verdicts(True)
    with EchoServer() as server, Reloaded(server.port, [TRACK], threads=16) as proxy:
        def visit(number):
            began = time.monotonic()
            client = arrive(proxy, f'127.0.1.{number + 1}')
            with client or contextlib.nullcontext():
                verdicts.told(talks(client), began)
        with Crowd(COMERS, visit) as crowd:
            for change in range(CHANGES):
                verdicts.goes_on_with(proxy, change % 2 == 1)
                crowd.goes_on()
        crowd.goes_on()
        assert proxy.counts_of_reloads() == (CHANGES + 1, CHANGES, 0), proxy.counts_of_reloads()
        proxy.settles()


def comers_at_once(proxy, count):
    """So many clients that connect at once."""
    clients = [proxy.newcomer() for _ in range(count)]
    for client in clients:
        client.settimeout(PATIENCE)
    return clients


def all_threads_judge_by_the_new_one():
    """Each of 16 threads takes some of 64 clients that come at once after a reload, and all of them get to the new server; then all are
    rejected."""
    with Server(names(b'a')) as first, Server(names(b'b')) as second, Reloaded(first.port, [TRACK], threads=16) as proxy:
        places = {b'a': f'127.0.0.1:{first.port}', b'b': f'127.0.0.1:{second.port}'}
        for name in (b'b', b'a') * 4:
            proxy.takes(server=places[name])
            clients = comers_at_once(proxy, CROWD)
            found = [named_by(client) for client in clients]
            assert found == [name] * CROWD, (name, found)
            proxy.takes(server=places[name], rules=[TRACK, REJECT])
            late = comers_at_once(proxy, CROWD)
            found = [named_by(client) for client in late]
            assert found == [b''] * CROWD, found
            for client in (*clients, *late):
                client.close()
        proxy.settles()


class Held:
    """The connections that clients know to be open, and how many there were at most while one version alone may have judged."""

    def __init__(self, limit):
        self.lock, self.open, self.most, self.versions = threading.Lock(), 0, collections.Counter(), Versions((1, limit))

    def begins(self, began):
        """One more is open, that began to connect at this moment. Whoever of those that are open was judged last was judged since then,
        beside all the others: so they are as many as its limit allows."""
        with self.lock:
            self.open += 1
            possible = self.versions.possible(began, time.monotonic())
            assert self.open <= max(limit for _, limit in possible), (self.open, possible)
            if len(possible) == 1:
                self.most[possible[0]] = max(self.most[possible[0]], self.open)

    def ends(self):
        """One is about to be closed."""
        with self.lock:
            self.open -= 1

    def reaches(self, crowd):
        """Waits until as many are open as the last version allows, and no other may have judged them."""
        known = self.versions.known[-1]
        wait_for(f'{known} is reached', lambda: crowd.faults or self.most[known] == known[1])
        crowd.goes_on()


def limits_hold_across_reloads():
    """64 clients of one address come and go, while limits of 2, 5, 1 and 3 follow each other, each of which is reached. No more are open
    than the greatest limit by which one of them may have been judged; and a newcomer is never one above its own limit."""
    held = Held(LIMITS[0])
    with EchoServer() as server, Reloaded(server.port, [TRACK, reject_above(LIMITS[0])], threads=16) as proxy:
        def visit(_):
            began = time.monotonic()
            client = arrive(proxy)
            with client or contextlib.nullcontext():
                if talks(client):
                    held.begins(began)
                    time.sleep(random.random() * 0.02)
                    held.ends()
        with Crowd(CROWD, visit) as crowd:
            held.reaches(crowd)
            for version, limit in enumerate((LIMITS * ROUNDS)[1:], start=2):
                proxy.write(proxy.text(rules=[TRACK, reject_above(limit)]))
                held.versions.goes_on_with((version, limit), proxy.asks)
                time.sleep(JUDGES)
                held.reaches(crowd)
        crowd.goes_on()
        proxy.settles()


def who_came_by_a_greater_limit_stays():
    """Two by a limit of two; three more by one of five. By one of two then nobody comes before one alone is left; by one of one nobody
    before all have gone. Whoever is there is never closed for it."""
    def admits(most):
        """How many come until one is rejected."""
        came = []
        while len(came) <= most:
            client = arrive(proxy)
            if not is_greeted(client):
                return came
            came.append(client)
        raise AssertionError(f'{len(came)} are admitted, and {most} may be')

    def leaves(client, left):
        client.close()
        wait_for('it is gone', lambda: proxy.rows()['127.0.0.1']['use'] == left)

    with reloadable(TRACK, reject_above(2)) as proxy:
        there = admits(2)
        proxy.takes(rules=[TRACK, reject_above(5)])
        there += admits(3)
        assert len(there) == 5, there
        proxy.takes(rules=[TRACK, reject_above(2)])
        for left in (4, 3, 2):
            assert not admits(0), left
            leaves(there.pop(0), left)
        assert not admits(0)
        leaves(there.pop(0), 1)
        there += admits(1)
        assert len(there) == 2, there
        proxy.takes(rules=[TRACK, reject_above(1)])
        for left in (1, 0):
            assert not admits(0), left
            leaves(there.pop(0), left)
        there = admits(1)
        assert len(there) == 1, there
        for client in there:
            client.close()
        proxy.settles()


def a_thousand_reloads_lose_no_byte():
    """Beside bulk traffic it is reloaded as often as a run can be, and the next time is refused. Each client gets back all that it sent,
    and the table has as many connections and bytes as there were."""
    sent, done, lock = random.Random(1).randbytes(BULK), [0], threading.Lock()
    with reloadable(TRACK, serve=echoes, threads=4) as proxy:
        def visit(_):
            with proxy.connect() as client:
                saying = threading.Thread(target=lambda: (client.sendall(sent), client.shutdown(socket.SHUT_WR)))
                saying.start()
                assert read_all(client) == sent, 'bytes are lost'
                saying.join()
            with lock:
                done[0] += 1
        with Crowd(6, visit) as crowd:
            for version in range(2, OFTEN + 2):
                assert proxy.takes(rules=[TRACK, reject_above(1_000 + version % 2)]) == version
            often = f'it was reloaded {OFTEN} times, as often as a run can be.'
            assert proxy.asks() == f'Not reloaded: {often}'
        crowd.goes_on()
        assert proxy.reload() == refused(often)
        wait_for('all have gone', proxy.is_unused)
        row = proxy.rows()['127.0.0.1']
        assert (row['conn_cnt'], row['bytes_in_cnt'], row['bytes_out_cnt']) == (done[0], done[0] * BULK, done[0] * BULK), (row, done)
        assert proxy.counts_of_reloads() == (OFTEN + 1, OFTEN, 2), proxy.counts_of_reloads()
        assert done[0] > 20, done
        proxy.settles()


def is_left_alone(server):
    """Whether nobody connects to a far server for a while."""
    server.listener.settimeout(0.3)
    try:
        server.listener.accept()
        return False
    except TimeoutError:
        return True
    finally:
        server.listener.settimeout(PATIENCE)


def who_is_open_keeps_its_server():
    """After a reload to another server newcomers get to that one, and the old one hears of none; who is open goes on with its own."""
    with FarServer() as old, FarServer() as new, Reloaded(old.port, [TRACK], threads=4) as proxy:
        client, far = old.joined(proxy)
        proxy.takes(server=f'127.0.0.1:{new.port}')
        others = [new.joined(proxy) for _ in range(20)]
        assert is_left_alone(old)
        for speaker, hearer in ((client, far), (far, client), others[0], others[0][::-1]):
            speaker.sendall(b'still')
            assert hearer.recv(9) == b'still'
        proxy.takes(server=f'127.0.0.1:{old.port}')
        others += [old.joined(proxy)]
        assert is_left_alone(new)
        for pair in ((client, far), *others):
            for stream in pair:
                stream.close()
        proxy.settles()


def a_retry_asks_the_old_server():
    """A client whose server refuses is tried again at that one, also after a reload to another, to which newcomers get meanwhile."""
    port = free_port()
    with Server(names(b'b')) as new, Reloaded(port, [TRACK], '--retries', '30', threads=2) as proxy, proxy.connect() as waits:
        wait_for('it is tracked', lambda: proxy.rows().get('127.0.0.1', {}).get('conn_cur') == 1)
        proxy.takes(server=f'127.0.0.1:{new.port}')
        with proxy.connect() as client:
            assert named_by(client) == b'b'
        assert headed.is_quiet(waits, 1.5), 'it waits for its own'
        with socket.create_server(('127.0.0.1', port)) as listener:
            listener.settimeout(PATIENCE)
            far, _ = listener.accept()
            with far:
                far.sendall(b'a')
                assert named_by(waits) == b'a'
        waits.close()
        proxy.settles()


def a_server_may_be_of_the_other_family():
    """From a server of IPv4 to one of IPv6 and back, with a socket at hand for the one before: each client gets to the server of its
    version."""
    for threads in (1, 4):
        with Server(names(b'a')) as four, Server(names(b'b'), '::1') as six, Reloaded(four.port, [TRACK], threads=threads) as proxy:
            places = {b'a': f'127.0.0.1:{four.port}', b'b': f'[::1]:{six.port}'}
            for name in (b'a', b'b') * 10:
                proxy.takes(server=places[name])
                for _ in range(2 * threads):
                    with proxy.connect() as client:
                        assert named_by(client) == name, (threads, name)
            proxy.settles()


def who_waits_for_its_header_is_judged_by_the_new_rules():
    """A client whose header isn't whole as it is reloaded is judged, once it is, by the new rules, and connected to the new server."""
    client, header = '203.0.113.9', line('203.0.113.9')
    barred = [TRACK, f'{REJECT} if {{ src {client} }}']
    words = ['--accept-proxy', headed.HERE, '--timeout-header', '1m']
    with Server(names(b'a')) as old, Server(names(b'b')) as new:
        places = {b'a': f'127.0.0.1:{old.port}', b'b': f'127.0.0.1:{new.port}'}
        with Reloaded(old.port, [TRACK], *words, tables=[headed.TABLE], threads=2) as proxy:
            for told, name in (({'server': places[b'b']}, b'b'), ({'rules': barred}, b''), ({'server': places[b'b']}, b'b'),
                               ({'server': places[b'a']}, b'a')):
                accepted = headed.counts(proxy)['accepted']
                waiting = [headed.begins(proxy, header[:-1]) for _ in range(6)]
                wait_for('all are accepted', lambda: headed.counts(proxy)['accepted'] == accepted + 6)
                proxy.takes(**told)
                for stream in waiting:
                    with stream:
                        stream.sendall(header[-1:])
                        assert named_by(stream) == name, told
            row, = proxy.rows().values()
            assert row['conn_cnt'] == 24, row
            proxy.settles()


TRIALS = [from_the_answer_on_the_new_rules_judge, all_threads_judge_by_the_new_one, limits_hold_across_reloads,
          who_came_by_a_greater_limit_stays, a_thousand_reloads_lose_no_byte, who_is_open_keeps_its_server, a_retry_asks_the_old_server,
          a_server_may_be_of_the_other_family, who_waits_for_its_header_is_judged_by_the_new_rules]
