"""Trials of `stickd top`: which entries it shows, in which order, and how wide."""
import time

from lib.operations.base import OTHER, OnTerminal, asked, fill, running


def top(proxy, *words):
    """The lines that `top` writes, each cut into its words."""
    status, written, said = asked(proxy.path, *words, command='top')
    assert (status, said) == (0, ''), (words, status, said)
    return written.splitlines(), [line.split() for line in written.splitlines()]


def the_greatest_come_first():
    """Of 30 entries the 20 with the greatest number, in falling order, as wide as the widest; or as many as are asked for."""
    began = time.monotonic()
    with running() as proxy:
        fill(proxy, 30)
        lines, rows = top(proxy, '--by', 'gpc0')
        oldest = 600 - (time.monotonic() - began) - 1
        assert rows[0] == ['key', 'use', 'exp', 'gpc0', 'conn_rate(10000)', 'conn_cur'], rows[0]
        assert [row[3] for row in rows[1:]] == [str(number) for number in range(30, 10, -1)], rows
        assert [row[0] for row in rows[1:]] == [f'10.0.0.{number}' for number in range(30, 10, -1)], rows
        assert all(oldest <= int(row[2]) <= 600 for row in rows[1:]), rows
        assert all([row[1], *row[4:]] == ['0', '0', '0'] for row in rows[1:]), rows
        assert len({len(line) for line in lines}) == 1 and lines[0].startswith('      key use exp'), lines
        assert len(top(proxy, '--by', 'gpc0', '--rows', '3')[1]) == 4
        assert len(top(proxy, '--by', 'gpc0', '--rows', '40')[1]) == 31, 'all of them, and no more'
        assert top(proxy, '--by', 'exp', '--rows', '1')[1][1][0] == '10.0.0.30', 'the one that was set last lives longest'


def as_great_ones_keep_their_order():
    """By connections, which none of them has, entries stand in the order of the answer."""
    with running() as proxy:
        fill(proxy, 30)
        answer = [line.split()[1][4:] for line in proxy.command('show table www\n').splitlines() if line.startswith('0x0:')]
        assert [row[0] for row in top(proxy)[1][1:]] == answer[:20], answer


def of_several_tables_one_is_named():
    """Without a name, of several tables none is shown, and they are said; a table that isn't there, and a number, neither."""
    with running(OTHER) as proxy:
        fill(proxy, 2)
        assert asked(proxy.path, command='top') == (1, '', 'stickd: --table names one of its tables: www, other\n')
        assert top(proxy, '--table', 'other')[1] == [['key', 'use', 'exp']]
        assert [row[0] for row in top(proxy, '--table', 'www', '--by', 'gpc0')[1]] == ['key', '10.0.0.2', '10.0.0.1']
        assert asked(proxy.path, '--table', 'none', command='top') == (1, '', 'stickd: No such table.\n')
        assert asked(proxy.path, '--table', 'www', '--by', 'gpc1', command='top') == (
            1, '', 'stickd: its entries have no such number, but use, exp, gpc0, conn_rate, conn_cur\n')


def a_terminal_is_filled():
    """On a terminal entries are shown in place each second, no wider than it says."""
    with running() as proxy:
        fill(proxy, 2)
        with OnTerminal('top', '--socket', proxy.path, '--by', 'gpc0', columns=12) as terminal:
            for picture in terminal.pictures(2):
                assert [line[:12].split()[0] for line in picture.splitlines()] == ['key', '10.0.0.2', '10.0.0.1'], picture
                assert all(len(line) == 12 for line in picture.splitlines()), picture


def the_greatest_stay_in_sight():
    """On a terminal no more entries are shown than it has lines for, as LINES says, or 24: the greatest, their headings, and a line for
    the cursor."""
    with running() as proxy:
        fill(proxy, 40)
        for lines, shown in ((None, 22), (10, 8), (100, 40)):
            with OnTerminal('top', '--socket', proxy.path, '--by', 'gpc0', '--rows', '100', lines=lines) as terminal:
                picture = terminal.pictures(1)[0]
            keys = [line.split()[0] for line in picture.splitlines()]
            assert keys == ['key', *[f'10.0.0.{number}' for number in range(40, 40 - shown, -1)]], (lines, picture)
            assert picture.count('\n') < (lines or 24), 'the last line end would scroll'


TRIALS = [the_greatest_come_first, as_great_ones_keep_their_order, of_several_tables_one_is_named, a_terminal_is_filled,
          the_greatest_stay_in_sight]
