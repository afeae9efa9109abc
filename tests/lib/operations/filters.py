"""Trials of several filters of `show table` and `clear table`, which the stats socket takes as HAProxy does (Management Guide 2.6, 9.3). What
is listed was typed by hand from the entries, and is what HAProxy 2.6.12 listed of the same ones."""
import itertools
import re

from lib.operations.watched import Watched
from lib.proxy import TRACK, Server, greets, is_greeted

TABLE = 'stick-table type ip size 1k expire 1h store gpc0,conn_cnt,conn_cur'
# Entries by the last number of their address: gpc0 and conn_cnt.
ENTRIES = {1: (0, 1), 2: (1, 0), 3: (2, 3), 4: (3, 3)}
# Filters, and which entries match all of them.
MATCHES = [
    (['data.gpc0 gt 0', 'data.conn_cnt gt 0'], [3, 4]),
    (['data.gpc0 gt 0', 'data.gpc0 lt 3'], [2, 3]),
    (['data.gpc0 gt 0', 'data.gpc0 lt 3', 'data.conn_cnt ge 0', 'data.conn_cur eq 0'], [2, 3]),
    (['data.gpc0 ge 0', 'data.conn_cnt ne 3', 'data.conn_cur le 0'], [1, 2]),
    (['data.gpc0 eq 2', 'data.conn_cnt eq 3'], [3]),
    (['data.gpc0 eq 2', 'data.gpc0 eq 3'], []),
    (['data.gpc0 gt 0', 'data.gpc0 gt 0'], [2, 3, 4]),
]
UNKNOWN = 'Unknown command.\n\n'
NOT_STORED = 'Data type not stored in this table.\n\n'
# Filters that are wrong, and what each is answered.
WRONG = [
    ('data.gpc0 gt 0 data.gpc0 gt 0 data.gpc0 gt 0 data.gpc0 gt 0 data.gpc0 gt 0', UNKNOWN), ('data.gpc0 gt 0 more', UNKNOWN),
    ('data.gpc0 gt 0 data.conn_cnt gt', UNKNOWN), ('data.gpc0 gt 0 data.conn_cnt above 0', UNKNOWN), ('data.gpc0 gt 0 key 10.0.0.1', UNKNOWN),
    ('key 10.0.0.1 data.gpc0 gt 0', UNKNOWN), ('data.gpc0 gt 0 conn_cnt gt 0', UNKNOWN),
    ('data.gpc0 gt 0 data.none gt 0', NOT_STORED), ('data.gpc0 gt 0 data.gpc1 gt 0', NOT_STORED), ('data.gpc1 gt 0 data.gpc0 gt 0', NOT_STORED),
    ('data.gpc0 gt 0 data.conn_cnt gt x', 'Invalid value.\n\n'), ('data.gpc0 gt 18446744073709551616 data.conn_cnt gt 0', 'Invalid value.\n\n'),
]


def listing(numbers):
    """The listing of these entries, without what is left of their lives."""
    rows = (f'0x0: key=10.0.0.{number} use=0 exp=* gpc0={ENTRIES[number][0]} conn_cnt={ENTRIES[number][1]} conn_cur=0\n' for number in numbers)
    return f'# table: www, type: ip, size:1024, used:{len(ENTRIES)}\n' + ''.join(rows) + '\n'


def without_lives(answer):
    """An answer with a star for what is left of each life."""
    return re.sub(r' exp=\d+ ', ' exp=* ', answer)


def filled(server):
    """The program at work with the entries in its table."""
    return Watched(server.port, [TABLE, TRACK], '--shards', '4')


def fill(proxy):
    """Makes the entries."""
    for number, (gpc0, conn_cnt) in ENTRIES.items():
        assert proxy.command(f'set table www key 10.0.0.{number} data.gpc0 {gpc0} data.conn_cnt {conn_cnt}\n') == '\n'


def entries_match_all_filters():
    """Two to four filters list the entries that match all of them, in whatever order the filters stand."""
    with Server(greets) as server, filled(server) as proxy:
        fill(proxy)
        for filters, numbers in MATCHES:
            for order in itertools.permutations(filters):
                said = without_lives(proxy.told(f'show table www {" ".join(order)}'))
                assert said == listing(numbers), (order, said)


def entries_that_match_are_cleared():
    """`clear table` with several filters removes the entries that match all of them, and no other."""
    with Server(greets) as server, filled(server) as proxy:
        for filters, numbers in MATCHES:
            fill(proxy)
            assert proxy.told(f'clear table www {" ".join(filters)}') == '\n', filters
            left = [number for number in ENTRIES if number not in numbers]
            wanted = listing(left).replace(f'used:{len(ENTRIES)}', f'used:{len(left)}')
            assert without_lives(proxy.told('show table www')) == wanted, filters


def what_is_held_is_not_cleared():
    """`clear table` with several filters leaves an entry that a connection holds, says so, and removes the others that match."""
    with Server(greets) as server, filled(server) as proxy, proxy.connect('127.0.0.9') as client:
        assert is_greeted(client)
        fill(proxy)
        assert proxy.told('clear table www data.conn_cnt gt 0 data.gpc0 ge 0') == 'Entry currently in use, cannot remove.\n\n'
        said = proxy.told('show table www')
        assert 'used:2\n' in said and 'key=10.0.0.2 ' in said and 'key=127.0.0.9 use=1 ' in said, said


def wrong_filters_are_told():
    """Each line of wrong filters is answered in the words that one filter has, and changes nothing."""
    with Server(greets) as server, filled(server) as proxy:
        fill(proxy)
        for filters, wanted in WRONG:
            for verb in ('show', 'clear'):
                said = proxy.told(f'{verb} table www {filters}')
                assert said == wanted, (verb, filters, said)
        assert proxy.told('show table none data.gpc0 gt 0 data.conn_cnt gt x') == 'No such table.\n\n'
        assert without_lives(proxy.told('show table www')) == listing(ENTRIES)


def the_command_socket_takes_one():
    """Several filters are no command on the command socket; one filter is one on both."""
    with Server(greets) as server, filled(server) as proxy:
        fill(proxy)
        for filters, _ in MATCHES:
            assert proxy.command(f'show table www {" ".join(filters)}\n') == UNKNOWN, filters
            one = f'show table www {filters[0]}'
            assert without_lives(proxy.command(f'{one}\n')) == without_lives(proxy.told(one)), one
            assert proxy.command(f'clear table www {" ".join(filters)}\n') == UNKNOWN, filters
        assert without_lives(proxy.told('show table www')) == listing(ENTRIES)


TRIALS = [entries_match_all_filters, entries_that_match_are_cleared, what_is_held_is_not_cleared, wrong_filters_are_told,
          the_command_socket_takes_one]
