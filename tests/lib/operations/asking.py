"""Trials of `stickd ctl`: what it shows, its status, JSON, and answers that are shown again and again."""
import json
import os
import re
import shlex
import subprocess
import tempfile

from lib.operations.base import OTHER, OnTerminal, answers, asked, fill, running
from lib.operations.watched import watched
from lib.places import TOP, stickd
from lib.proxy import PATIENCE, Proxy, Server, echoes

# What says why a command did nothing: the words of a command, and its answer.
REFUSALS = [
    (['bogus'], 'Unknown command.'),
    (['show', 'table', 'none'], 'No such table.'),
    (['set', 'table', 'www', 'key', 'x'], 'Invalid key.'),
    (['show', 'table', 'www', 'data.gpc1', 'gt', '0'], 'Data type not stored in this table.'),
    (['set', 'table', 'www', 'key', '10.0.0.1', 'data.conn_cur', '1'], "Data type can't be set."),
    (['set', 'table', 'www', 'key', '10.0.0.1', 'data.gpc0', 'x'], 'Invalid value.'),
    (['clear', 'table', 'www', 'key', '10.9.9.9'], 'Key not present.'),
]


def answers_are_shown_as_they_come():
    """What `ctl` shows of a table, of one that it changed, and of several commands is what the socket answers."""
    with running() as proxy:
        assert answers(proxy.path, 'set table www key 10.0.0.1 data.gpc0 7') == '\n'
        shown = answers(proxy.path, 'show', 'table', 'www')
        assert re.fullmatch(r'# table: www, type: ip, size:1024, used:1\n'
                            r'0x0: key=10\.0\.0\.1 use=0 exp=\d+ gpc0=7 conn_rate\(10000\)=0 conn_cur=0\n\n', shown), shown
        both = answers(proxy.path, 'show table ; show table')
        assert both == 2 * '# table: www, type: ip, size:1024, used:1\n\n', both
        assert answers(proxy.path, 'clear', 'table', 'www', 'key', '10.0.0.1') == '\n'
        assert answers(proxy.path, 'show', 'table', 'www') == '# table: www, type: ip, size:1024, used:0\n\n'
        assert answers(proxy.path, '') == ''


def what_did_nothing_has_status_1():
    """Each answer that says why a command did nothing is shown as it comes, with status 1, also beside others."""
    with running() as proxy:
        for words, wanted in REFUSALS:
            assert asked(proxy.path, *words) == (1, f'{wanted}\n\n', ''), (words, asked(proxy.path, *words))
        status, written, said = asked(proxy.path, 'show table ; bogus')
        assert (status, said) == (1, '') and written.endswith('Unknown command.\n\n'), (status, written, said)


def nobody_answers():
    """A socket that isn't there, and one that nobody answers: said with its path and the system's words, with status 1."""
    with tempfile.TemporaryDirectory() as room:
        path = f'{room}/none'
        assert asked(path, 'show table') == (1, '', f"stickd: {path} can't be reached: No such file or directory (os error 2)\n")
    with running() as proxy:
        proxy.killed()
        assert asked(proxy.path, 'show table') == (1, '', f"stickd: {proxy.path} can't be reached: Connection refused (os error 111)\n")


def what_is_no_line_is_not_sent():
    """A command with a line end, and one that is too long, are refused with status 2; the longest is sent."""
    refused = (2, '', 'stickd: commands are one line of at most 16384 bytes\n')
    with running() as proxy:
        assert asked(proxy.path, 'show\ntable') == refused
        assert asked(proxy.path, 'x' * 16_385) == refused
        assert asked(proxy.path, 'x' * 16_384) == (1, 'Unknown command.\n\n', '')


def plain_tables(text):
    """The tables of a plain answer, as JSON has them."""
    tables = []
    for line in text.splitlines():
        head = re.fullmatch(r'# table: (\S+), type: (\w+), size:(\d+), used:(\d+)', line)
        if head:
            tables.append({'name': head[1], 'type': head[2], 'size': int(head[3]), 'used': int(head[4]), 'entries': []})
        elif line:
            address, key, *numbers = line.split(' ')
            assert address == '0x0:' and key.startswith('key='), line
            tables[-1]['entries'].append({'key': key[4:], **{name: int(value) for name, value in (word.split('=') for word in numbers)}})
    return tables


def without_life(tables):
    """The tables without what is left of lives, which passes between two answers."""
    return [{**table, 'entries': [{name: value for name, value in entry.items() if name != 'exp'} for entry in table['entries']]}
            for table in tables]


def json_says_what_the_answer_says():
    """JSON, read back, has what the plain answer has: one table, all tables, texts as keys; and other answers as texts."""
    with running(OTHER) as proxy:
        fill(proxy, 3)
        for key in ['plain', 'a"b', 'a\\b', 'k=1', '\x7f', 'é']:
            assert answers(proxy.path, 'set', 'table', 'other', 'key', key, 'data.gpc0', '1') == '\n', key
        for words in ['show table', 'show table www', 'show table other', 'show table www ; show table other', 'show table www data.gpc0 gt 2']:
            plain, read = plain_tables(answers(proxy.path, words)), json.loads(answers(proxy.path, '--json', words))
            assert without_life(read) == without_life(plain), (words, read, plain)
            lives = [entry['exp'] for table in read for entry in table['entries']]
            assert all(isinstance(life, int) and life <= 600_000 for life in lives), lives
        assert json.loads(answers(proxy.path, '--json', 'clear table www key 10.0.0.1')) == {'answer': ''}
        status, written, _ = asked(proxy.path, '--json', 'show table none')
        assert (status, json.loads(written)) == (1, {'answer': 'No such table.'}), written
        status, written, _ = asked(proxy.path, '--json', 'show table ; bogus')
        assert status == 1 and json.loads(written)[-1] == {'answer': 'Unknown command.'}, written


def watching_ends_with_the_program():
    """Off a terminal answers come one after the other, an empty line between them, until the program is killed: status 1."""
    for words, count in ([], 5), (['--json'], 9):
        with running() as proxy:
            watch = subprocess.Popen([stickd(), 'ctl', '--socket', proxy.path, *words, '--watch', '1', 'show', 'table'], stdin=subprocess.DEVNULL,
                                     stdout=subprocess.PIPE, stderr=subprocess.PIPE, text=True)
            lines = [watch.stdout.readline() for _ in range(count)]
            proxy.killed()
            shown = (''.join(lines) + watch.stdout.read()).rstrip('\n').split('\n\n')
            said, status = watch.stderr.read(), watch.wait(PATIENCE)
            assert len(shown) >= 3 and len(set(shown)) == 1, shown
            assert status == 1 and f"{proxy.path} can't be reached" in said, (status, said)
            if words:
                assert all(json.loads(text)[0]['name'] == 'www' for text in shown), shown
            else:
                assert shown[0] == '# table: www, type: ip, size:1024, used:0', shown


def what_changed_is_marked():
    """On a terminal an answer stands in place of the last one, with a mark before each line that wasn't there."""
    with running() as proxy, OnTerminal('ctl', '--socket', proxy.path, '--watch', '1', 'show', 'table') as terminal:
        assert terminal.pictures(1)[0] == '  # table: www, type: ip, size:1024, used:0\n', terminal.written
        fill(proxy, 1)
        assert '* # table: www, type: ip, size:1024, used:1\n' in terminal.pictures(3), terminal.written
        assert terminal.pictures(4)[3] == '  # table: www, type: ip, size:1024, used:1\n', terminal.written


def sessions():
    """The commands of the guide's section on asking, each with what it shows."""
    with open(os.path.join(TOP, 'docs', 'OPERATING.md'), encoding='utf-8') as guide:
        section = re.search(r'^## Asking a running stickd\n(.*?)^## ', guide.read(), re.M | re.S)[1]
    lines = [line[4:] for line in section.splitlines() if line.startswith('    ') or not line]
    for part in '\n'.join(lines).split('\n$ ')[1:]:
        command, _, shown = part.partition('\n')
        yield command, shown.rstrip('\n')


def the_example_of_the_guide():
    """What the guide for operators shows of both commands is what they print."""
    with Server(echoes) as server, Proxy(server.port, ['stick-table type ip size 1k store conn_cur,gpc0'], threads=1) as proxy:
        told = list(sessions())
        assert len(told) == 5, told
        for command, shown in told:
            words = [proxy.path if word == '/run/stickd.sock' else word for word in shlex.split(command)]
            done = subprocess.run([stickd(), *words[1:]], stdin=subprocess.DEVNULL, stdout=subprocess.PIPE, text=True, timeout=PATIENCE)
            assert (done.returncode, done.stdout.rstrip('\n')) == (0, shown), (command, done.stdout)


def time_that_passes_is_no_change():
    """A line isn't marked as less of its entry's life is left, and is where a number of it changed, or the entry was refreshed."""
    with running() as proxy, OnTerminal('ctl', '--socket', proxy.path, '--watch', '1', 'show', 'table', 'www') as terminal:
        fill(proxy, 2)
        # The pictures that show both, the first of which marks them.
        marks = [[line[:2] for line in picture.splitlines() if 'key=' in line] for picture in terminal.pictures(4)]
        assert ['  ', '  '] in marks, marks
        answers(proxy.path, 'set', 'table', 'www', 'key', '10.0.0.1', 'data.gpc0', '9')
        later = [[line[:2] for line in picture.splitlines() if 'key=' in line] for picture in terminal.pictures(8)[4:]]
        assert ['* ', '  '] in later, later


def what_is_watched_fits_the_terminal():
    """An answer that is longer than the terminal is shown from its head on, and it is said how many lines there are more; each line is
    as wide as the terminal at most."""
    with running() as proxy:
        fill(proxy, 40)
        for lines, columns, shown in ((None, None, 22), (10, 30, 8), (100, 200, 41)):
            words = ('ctl', '--socket', proxy.path, '--watch', '1', 'show', 'table', 'www')
            with OnTerminal(*words, columns=columns, lines=lines) as terminal:
                picture = terminal.pictures(1)[0].splitlines()
            rest = [f'.. {41 - shown} more'] if shown < 41 else []
            assert len(picture) == shown + len(rest) and picture[shown:] == rest, picture
            assert len(picture) < (lines or 24) and all(len(line) <= (columns or 80) for line in picture), picture
            assert picture[0].startswith('  # table: www'), picture


def help_points_to_the_other_socket():
    """`help` on the command socket lists what it answers, and what the stats socket has beside that; on the stats socket the other way."""
    with watched() as proxy:
        status, written, said = asked(proxy.path, 'help')
        assert (status, said) == (0, '') and written.startswith('Unknown command.\n\nThe socket of --socket answers\n  show table '), written
        assert 'show info' in written.splitlines()[-1], written
        status, written, said = asked(proxy.stats, 'help', 'show')
        assert (status, said) == (0, '') and written.startswith('The following commands are valid at this level:\n'), written
        assert written.endswith('The socket of --socket answers show table, set table and clear table alone, line after line.\n'), written
        assert asked(proxy.path, '--json', 'help')[1].count('\n') == 1, 'JSON has the answer alone'


TRIALS = [the_example_of_the_guide, answers_are_shown_as_they_come, what_did_nothing_has_status_1, nobody_answers, what_is_no_line_is_not_sent,
          json_says_what_the_answer_says, watching_ends_with_the_program, what_changed_is_marked, time_that_passes_is_no_change,
          what_is_watched_fits_the_terminal, help_points_to_the_other_socket]
