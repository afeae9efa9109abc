"""Trials of what the program says as it starts: each doubt about how it was started in one line, once, and nothing without one."""
import re
import signal
import socket

from lib.proxy import TRACK, Proxy, Server, echoes, read_all, reject_above

TABLE = 'stick-table type ip size {size} store conn_cur'
SAFE = [TRACK, 'tcp-request connection reject unless { sc0_tracked }', reject_above(3)]
TIMES = ['--timeout-client', '60s', '--timeout-server', '60s']


class Launched(Proxy):
    """The program at work as its launcher starts it, with SIGTERM and SIGINT blocked: that they aren't is a doubt of its own."""

    def limit(self):
        super().limit()
        signal.pthread_sigmask(signal.SIG_BLOCK, [signal.SIGTERM, signal.SIGINT])


def words_of(lines):
    """The lines on standard error but for those that say that the program goes on as it should."""
    return [line for line in lines if not line.startswith('[INFO')]


def warned(lines, words, descriptors=4000, size='1k'):
    """What the program says as it starts with these rules and words."""
    with Server(echoes) as server:
        with Launched(server.port, [TABLE.format(size=size), *lines], *words, threads=1, descriptors=descriptors) as proxy:
            # One is served only behind what is said at the start.
            with proxy.connect() as client:
                client.shutdown(socket.SHUT_WR)
                read_all(client)
            return words_of(proxy.killed())


def asks_for(line):
    """The numbers that a line says."""
    return [int(number.replace(',', '')) for number in re.findall(r'\b\d[\d,]*\b', line)]


# What is wrong, the rules, the words, the descriptors and the size of the table; and what the one line has to say.
DOUBTS = {
    'too few descriptors': (SAFE, ['--connections', '1000', *TIMES], 150, '1k',
                            lambda line: 'ulimit -n' in line and 150 in asks_for(line) and max(asks_for(line)) >= 2000),
    'a limit that an untracked connection passes': ([TRACK, reject_above(3)], ['--connections', '1025', *TIMES], 4000, '1k',
                                                    lambda line: 'tracked' in line),
    'many places in a shard': (SAFE, ['--connections', '1000', '--shards', '2', *TIMES], 4000, '300k', lambda line: '--shards' in line),
}


def each_doubt_is_said_once():
    """Of each thing that is doubtful one line is said, and of nothing else: both numbers where there are too few descriptors, and
    otherwise what to look at."""
    faults = []
    for doubt, (lines, words, descriptors, size, is_said) in DOUBTS.items():
        said = warned(lines, words, descriptors, size)
        if len(said) != 1 or not is_said(said[0]):
            faults.append(f'{doubt}: {said}')
    assert not faults, faults


def neither_timeout_is_set():
    """Without both times, what is missing is said once, in a line or two."""
    said = warned(SAFE, ['--connections', '1000'])
    for name in ('--timeout-client', '--timeout-server'):
        assert sum(name in line for line in said) == 1, (name, said)
    assert len(said) <= 2, said


def all_doubts_at_once():
    """Where all is doubtful at once, each is said, a line each."""
    # Of one shard 65,536 references can be out.
    said = warned([TRACK, reject_above(3)], ['--connections', '65537'], 150, '300k')
    for doubt, (_, _, _, _, is_said) in DOUBTS.items():
        assert sum(map(is_said, said)) == 1, (doubt, said)
    assert len(said) == len(set(said)), said


def nothing_is_said_without_a_doubt():
    """With descriptors, times, a limit that holds and enough shards nothing is said; nor of a limit whose table has a place for each
    connection."""
    said = warned([TRACK, reject_above(3)], ['--connections', '1024', *TIMES])
    assert said == [], said
    said = warned(SAFE, ['--connections', '1000', '--shards', '4', *TIMES], 4000, '300k')
    assert said == [], said


def what_rules_say_to_no_end():
    """A pattern that no client matches, and a datum that no table stores, are said once each, with the number of their rule."""
    said = warned([TRACK, 'tcp-request connection reject if { src ::ffff:127.0.0.2 } or { sc0_conn_rate gt 3 }'],
                  ['--connections', '1000', *TIMES])
    assert len(said) == 2, said
    assert all('Rule 2:' in line for line in said), said
    assert '::ffff:0:0/96' in said[0] and 'conn_rate' in said[1], said


TRIALS = [each_doubt_is_said_once, neither_timeout_is_set, all_doubts_at_once, nothing_is_said_without_a_doubt,
          what_rules_say_to_no_end]
