"""Allocations of a running proxy that are refused one by one: as it starts, as it answers commands, as it serves connections, and
as it settles."""
import concurrent.futures
import contextlib
import glob
import os
import re
import tempfile
import time

from lib.campaigns.clients import shut, wait_for_rest
from lib.campaigns.parts import Report, run, write_file
from lib.places import stickd
from lib.proxy import Proxy, Server, echoes, free_port, wait_for
from lib.shims import Refusals, build_shim

TABLE = 'stick-table type ip size 20 store gpc0,conn_cur,conn_cnt'
TRACK = 'tcp-request connection track-sc0 src'
REFUSED = 'Out of memory.\n\n'
SAID = b'request'
# How many runs on end have to meet no refusal.
UNMET = 10
# How many times on end each thread has to be seen waiting, and the seconds between two looks.
LOOKS, LOOK = 5, 0.01
# What is done before each command.
PREPARED = ''.join(f'set table www key 10.0.0.{n} data.gpc0 {n}\n' for n in range(1, 6))
LISTING = 'show table www\n'
COMMANDS = ['set table www key 10.0.0.9 data.gpc0 7 data.conn_cnt 3', 'set table www key 10.0.0.2 data.gpc0 9', 'clear table www',
            'clear table www key 10.0.0.3', 'clear table www data.gpc0 gt 2', 'show table www', 'show table', 'show table www key 10.0.0.1',
            'show table www data.gpc0 le 3', 'show table u', 'set table www key nonsense', 'what', 'set table www key 10.0.0.1 data.gpc0 x']
# What the program says where it can't start, or can't settle, for want of memory.
SHORT = re.compile(r"(?:\[INFO .*\n|<4>stickd: warning: .*\n)*(?:(?:<3>)?stickd: (?:line \d+: C12 out of memory|out of memory|\S+ can't be (?:read|bound): .*|"
                   r"a thread can't (?:be started|wait for connections))|error: out of memory|unsettled www: S4)\n(?:\[INFO .*\n)*")
SETTLED = re.compile(r'settled www: \d+ calls, ([01]) references\n')


def all_wait(process):
    """Whether each thread of a process waits. One that has just begun may still take its first memory, which would be the allocation
    of a number that another was meant to have."""
    states = []
    for path in glob.glob(f'/proc/{process}/task/*/stat'):
        with open(path, encoding='ascii') as file:
            states.append(file.read().rpartition(')')[2].split()[0])
    return all(state == 'S' for state in states)


def stays(holds):
    """Whether something holds at each of some looks on end."""
    for _ in range(LOOKS):
        if not holds():
            return False
        time.sleep(LOOK)
    return True


class Refused:
    """A proxy of which single allocations are refused, on one thread beside those for commands and for the house."""

    def __init__(self, shim, *words):
        self.room = tempfile.TemporaryDirectory(prefix='stickd-')
        self.refusals = Refusals(self.room.name)
        self.server = Server(echoes)
        self.proxy = Proxy(self.server.port, [TABLE, TRACK], *words, threads=1, environment=self.refusals.environment(shim))
        wait_for_rest(self.proxy, 1)
        wait_for('each thread waits', lambda: stays(lambda: all_wait(self.proxy.program.pid)))

    def __enter__(self):
        return self

    def __exit__(self, *_):
        self.proxy.__exit__()
        self.server.__exit__()
        self.room.cleanup()

    def serve_one(self):
        """Serves a client, behind which each thread has what it takes to begin with: one that lacked it would end the program. What
        the table keeps of the client is cleared."""
        wait_for('one is served', lambda: visit(self.proxy) == SAID)
        wait_for('it is gone', self.proxy.is_unused)
        self.proxy.command('clear table www\n')

    def each(self, work):
        """Does work, which is handed a number, with the first allocation refused, the second, and so on, until some runs on end meet
        none. How many there were."""
        number, unmet = 0, 0
        while unmet < UNMET:
            number += 1
            unmet = 0 if work(number) else unmet + 1
        return number - UNMET


def answer_refused(report, refused, command, fresh):
    """A command with each of its allocations refused: it is answered that memory is short, and nothing is done; or, where another
    thread met it, as with none refused. Then it is answered once there is memory."""
    proxy, refusals = refused.proxy, refused.refusals

    def ask(number):
        proxy.command('clear table www\n' + PREPARED)
        before = proxy.command(LISTING)
        refusals.refuse(number)
        found = proxy.command(command + '\n')
        met = refusals.were_met()
        after = proxy.command(LISTING)
        is_right = (found, after) in ([(REFUSED, before), fresh] if met else [fresh])
        report.check(is_right, f'{command!r} with allocation {number} refused: {found!r}, then {after!r}')
        return met
    return refused.each(ask)


def commands_refused(given):
    """Each form of a command on the socket, each allocation refused in turn."""
    report, counts = Report(), []
    with tempfile.TemporaryDirectory() as room, Refused(build_shim(room)) as refused:
        proxy = refused.proxy
        refused.serve_one()
        for command in COMMANDS:
            proxy.command('clear table www\n' + PREPARED)
            fresh = proxy.command(command + '\n'), proxy.command(LISTING)
            counts.append(answer_refused(report, refused, command, fresh))
        report.check(sum(counts) > len(COMMANDS), f'allocations that were refused, by command: {counts}')
        report.tell(f'allocations that were refused, by command: {counts}')
    return report


def visit(proxy):
    """A client that gets back what it sends; what came."""
    with contextlib.suppress(OSError), proxy.connect() as client:
        client.sendall(SAID)
        return shut(client)
    return b''


def connections_refused(given):
    """A connection, each allocation refused in turn: it is echoed or closed, counted or not, and its reference is back; then one is
    served. All that on a table whose records begin again each second, so that they grow again."""
    report = Report()
    with tempfile.TemporaryDirectory() as room, Refused(build_shim(room), '--roll-at', '1') as refused:
        def come(number):
            before = refused.proxy.rows().get('127.0.0.1', {'conn_cnt': 0})['conn_cnt']
            refused.refusals.refuse(number)
            found = visit(refused.proxy)
            wait_for('it is gone', refused.proxy.is_unused)
            met = refused.refusals.were_met()
            after = refused.proxy.rows().get('127.0.0.1', {'conn_cnt': 0})['conn_cnt']
            wanted = [(SAID, before + 1)] + ([(b'', before), (b'', before + 1)] if met else [])
            report.check((found, after) in wanted, f'allocation {number} refused: {found!r}, {before} and {after} connections')
            return met
        refused.serve_one()
        met = refused.each(come)
        report.check(met > 0, 'no allocation was met')
        report.tell(f'{met} allocations refused')
        wait_for('one is served', lambda: visit(refused.proxy) == SAID)
    return report


def is_end(status, written, said):
    """Whether a run ended with a settled table, or said on one line that memory is short."""
    return status == 0 and SETTLED.fullmatch(written) is not None or status in (1, 2) and SHORT.fullmatch(said) is not None


def settle_refused(shim, number):
    """A proxy that stops behind its first connection, with this allocation refused as that comes: its status, and what it wrote."""
    with Refused(shim, '--stop-after', '1', '--shards', '2') as refused:
        refused.refusals.refuse(number)
        visit(refused.proxy)
        return (*refused.proxy.ended(), refused.refusals.were_met())


def start_refused(shim, number):
    """A start that stops after no connection, with this allocation refused."""
    with tempfile.TemporaryDirectory(prefix='stickd-') as room:
        lines = ['listen www', f'bind 127.0.0.1:{free_port()}', TABLE, TRACK, 'server s 127.0.0.1:1', '']
        words = ['run', write_file(room, 'proxy.cfg', '\n'.join(lines)), '--socket', os.path.join(room, 's'), '--threads', '2']
        counted = write_file(room, 'counted', b'')
        ran = run([stickd(), *words, '--stop-after', '0'],
                  env={'LD_PRELOAD': shim, 'REFUSED_ALLOCATION': str(number), 'COUNTED_ALLOCATIONS': counted})
        with open(counted, encoding='ascii') as count:
            asked_for = int(count.read() or 0)
    return ran.status, ran.stdout.decode(), ran.stderr.decode(), asked_for >= number


def refuse_ends(report, end):
    """Has runs end with the first allocation refused, the second, and so on, several side by side, until some on end meet none. Each
    settles its table, or says on one line that memory is short. How many times a reference stayed out, and how many times the table
    was said to be unsettled."""
    outs, unsettled, number, unmet = 0, 0, 0, 0
    with tempfile.TemporaryDirectory() as room, concurrent.futures.ThreadPoolExecutor(os.cpu_count()) as pool:
        shim = build_shim(room)
        while unmet < UNMET:
            for status, written, said, met in pool.map(lambda one: end(shim, one), range(number + 1, number + UNMET + 1)):
                number += 1
                report.check(is_end(status, written, said), f'allocation {number} refused: {(status, written, said)}')
                unmet = 0 if met else unmet + 1
                outs += '1 references' in written
                unsettled += 'unsettled www: S4\n' in said
    report.check(number > unmet, 'no allocation was met')
    report.tell(f'{number - unmet} allocations refused')
    return outs, unsettled


def settling_refused(given):
    """A connection and the settling behind it, each allocation refused in turn, with receipts: the table is settled, with the reference
    that couldn't be given back if there is one, or it is said that there was no memory for it."""
    report = Report()
    outs, unsettled = refuse_ends(report, settle_refused)
    report.check(outs == 1, f'of a release one allocation is refused, and {outs} references stayed out')
    report.check(unsettled > 0, 'no table is unsettled for want of memory')
    report.tell(f'{unsettled} times unsettled')
    return report


def starts_refused(given):
    """A start that stops after no connection, each allocation refused in turn: it settles, or says on one line that memory is short."""
    report = Report()
    refuse_ends(report, start_refused)
    return report


def nothing_but_refusals(given):
    """All allocations refused from some moment on: a listing is refused, each connection is closed or served, and once there is
    memory again all is as it was."""
    report = Report()
    with tempfile.TemporaryDirectory() as room, Refused(build_shim(room)) as refused:
        proxy = refused.proxy
        refused.serve_one()
        proxy.command(PREPARED)
        before = proxy.command(LISTING)
        refused.refusals.refuse_all(True)
        for _ in range(20):
            report.check(proxy.command(LISTING) == REFUSED, 'a listing is made without memory')
            report.check(visit(proxy) in (b'', SAID), 'a connection is closed or served')
        refused.refusals.refuse_all(False)
        wait_for('nothing is tracked', proxy.is_unused)
        left = re.sub(r'0x0: key=127.0.0.1 .*\n', '', proxy.command(LISTING)).replace('used:6', 'used:5')
        report.check(left == before, f'{before!r}, then {left!r}')
        report.check(visit(proxy) == SAID, 'one is served again')
    return report
