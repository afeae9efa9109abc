"""Trials of what `stickd reload` answers, and what it leaves alone: files that are gone, faulty or ask for a restart, files that may be
taken, who may ask, and a program that stops."""
import os
import re
import socket
import subprocess

from lib.operations.ending import newcomers_before_refusals
from lib.operations.reload_base import REJECT, Reloaded, refused, reload, reloadable
from lib.places import stickd
from lib.proxy import PATIENCE, TRACK, FarServer, Server, arrive, free_port, greets, is_greeted, reject_above, wait_for

RESTART = ', which takes a restart.'
OTHER = 'backend other\n    stick-table type string len 32 size 100 expire 10m store gpc0\n'
# The tables of the start but for one word, and what that is told as.
CHANGES = [
    ('type', 'stick-table type ipv6 size 1k expire 10m store conn_cur,conn_cnt'),
    ('size', 'stick-table type ip size 2k expire 10m store conn_cur,conn_cnt'),
    ('expire', 'stick-table type ip size 1k expire 11m store conn_cur,conn_cnt'),
    ('expire', 'stick-table type ip size 1k store conn_cur,conn_cnt'),
    ('nopurge', 'stick-table type ip size 1k expire 10m nopurge store conn_cur,conn_cnt'),
    ('data', 'stick-table type ip size 1k expire 10m store conn_cur,conn_cnt,gpc0'),
    ('data', 'stick-table type ip size 1k expire 10m store conn_cur'),
    # Of several changes the first is told.
    ('type', 'stick-table type integer size 3k nopurge store gpc0'),
    ('size', 'stick-table type ip size 3k nopurge store gpc0'),
    ('nopurge', 'stick-table type ip size 1k expire 10m nopurge store gpc0'),
]
FIRST = 'stick-table type ip size 1k expire 10m store conn_cur,conn_cnt'
# The same table in other words.
ALIKE = ['stick-table type ip size 1024 expire 600s store conn_cnt,conn_cur',
         'stick-table store conn_cnt store conn_cur expire 600000 size 1k type ip']


def is_refused(proxy, answer):
    """That a reload is refused by this answer, in both ways of asking, and nothing changes: its clients are judged as they were."""
    version, done, count = proxy.counts_of_reloads()
    found = proxy.reload(), proxy.asks()
    assert found == (refused(answer), f'Not reloaded: {answer}'), (answer, found)
    assert proxy.counts_of_reloads() == (version, done, count + 2), proxy.counts_of_reloads()
    with proxy.connect() as client:
        assert is_greeted(client), answer
    assert not is_greeted(arrive(proxy, '127.0.0.9')), answer


# Rules that are never taken here, as by them nobody would be served; and those of the start, which serve all but one address.
NOBODY = [REJECT]
OLD = [f'{REJECT} if {{ src 127.0.0.9 }}', TRACK]


def by_old_rules():
    """The program by the rules of the start, on two tables."""
    return reloadable(*OLD, tables=[FIRST], others=OTHER)


def checked(path):
    """What `stickd check` says of a file on standard error."""
    return subprocess.run([stickd(), 'check', path], stdin=subprocess.DEVNULL, capture_output=True, text=True, timeout=PATIENCE).stderr


def a_file_that_is_no_file_changes_nothing():
    """A file that is gone, a folder, one that may not be read as text, and ones with faults: the first of them is told, as `stickd check`
    says it, and the old rules go on."""
    with by_old_rules() as proxy:
        whole = proxy.text(rules=NOBODY)
        for spoilt, fault in ((whole.replace('type ip', 'type none'), 'line 3: C4 unknown type or data'),
                              (whole.replace(REJECT, REJECT + ' if none'), 'line 4: C8 unknown ACL'),
                              (whole.replace(REJECT, f'{TRACK} table none'), 'line 4: C5 unknown table or backend'),
                              (whole.encode().replace(b'one', b'\xff'), 'line 5: C11 not UTF-8'),
                              (whole + OTHER, 'line 8: C6 second table or name'),
                              ('nonsense\n' + whole, 'line 1: C1 unknown keyword')):
            proxy.write(spoilt)
            assert checked(proxy.conf).endswith(f'stickd: {fault}\n'), (checked(proxy.conf), fault)
            is_refused(proxy, fault)
        os.unlink(proxy.conf)
        is_refused(proxy, f"{proxy.conf} can't be read: No such file or directory (os error 2)")
        os.mkdir(proxy.conf)
        is_refused(proxy, f"{proxy.conf} can't be read: Is a directory (os error 21)")
        os.rmdir(proxy.conf)
        proxy.write(whole)
        assert proxy.asks() == f'Reloaded: version 2, 1 rules, server {proxy.first["server"]}.', 'and then one that may be read'
        assert not is_greeted(arrive(proxy)), 'judges'


def what_takes_a_restart_is_told():
    """Each change that takes a restart is told by its table and its part, the first of several; and nothing else of the file is taken."""
    with by_old_rules() as proxy:
        for part, table in CHANGES:
            proxy.write(proxy.text(tables=[table], rules=NOBODY))
            is_refused(proxy, f'table www changes its {part}{RESTART}')
        far = 'backend far\n    stick-table type ip size 5 store gpc0\n'
        for others, told in (('', 'table other is gone'), (OTHER.replace('len 32', 'len 33'), 'table other changes its type'),
                             (OTHER.replace('size 100', 'size 101'), 'table other changes its size'),
                             (OTHER + far, 'table far is new'), (far + OTHER, 'table far is new'), (far, 'table other is gone'),
                             (far + OTHER.replace('gpc0', 'gpc1'), 'table other changes its data'),
                             (OTHER.replace('other', 'another'), 'table other is gone')):
            proxy.write(proxy.text(others=others, rules=NOBODY))
            is_refused(proxy, told + RESTART)
        proxy.write(proxy.text(tables=[], rules=NOBODY))
        is_refused(proxy, f'table www is gone{RESTART}')
        proxy.write(proxy.text(tables=[CHANGES[0][1]], others='', rules=NOBODY))
        is_refused(proxy, f'table www changes its type{RESTART}')


def where_clients_come_and_go_is_looked_at_first():
    """Without a bind, without a server, and with another bind: these are told in this order, before any table."""
    with by_old_rules() as proxy:
        other, table = f'127.0.0.1:{free_port()}', [CHANGES[0][1]]
        for told, answer in (({'bind': None, 'server': None}, 'no bind.'), ({'bind': None}, 'no bind.'), ({'server': None}, 'no server.'),
                             ({'server': None, 'bind': other}, 'no server.'), ({'bind': other}, f'bind changes{RESTART}'),
                             *(({'bind': f'{host}:{proxy.port}'}, f'bind changes{RESTART}') for host in ('127.0.0.2', '', '[::1]'))):
            proxy.write(proxy.text(rules=NOBODY, tables=table, **told))
            is_refused(proxy, answer)
        proxy.write('backend alone\n    server one 127.0.0.1:9\n')
        is_refused(proxy, 'no bind.')


def a_table_with_too_few_places_changes_its_size():
    """A table that has fewer places than there are shards could not be opened, and isn't: its size takes a restart."""
    with reloadable(*OLD, tables=[FIRST], others=OTHER, words=['--shards', '8']) as proxy:
        for table, others, name in ((FIRST.replace('1k', '7'), '', 'www'), (FIRST, OTHER.replace('100', '7'), 'other')):
            proxy.write(proxy.text(tables=[table], others=others, rules=NOBODY))
            is_refused(proxy, f'table {name} changes its size{RESTART}')


class Adopted(Reloaded):
    """The program at work on a file of HAProxy's."""

    def start(self):
        self.words.insert(1, '--haproxy')
        super().start()


def a_file_of_haproxys_takes_a_restart():
    """What was made of a file of HAProxy's isn't read again."""
    with Server(greets) as server, Adopted(server.port, OLD) as proxy:
        is_refused(proxy, "what is served was made of a file of HAProxy's, whose changes take a restart.")


def what_may_change_is_taken():
    """Rules, ACLs, limits, the tables in which rules track, the order of sections, where the server stands and comments are taken, each
    by one version more; and so is the same file."""
    limit, other = reject_above(1), 'tcp-request connection track-sc0 src table other'
    with by_old_rules() as proxy:
        served, place = proxy.first['server'], f'bind {proxy.first["bind"]}'
        body = [place, FIRST, *OLD]
        texts = [(proxy.text(), 2), (proxy.text(rules=[TRACK, limit]), 2),
                 (proxy.text(rules=['acl far src 10.0.0.0/8', f'{REJECT} if far']), 1),
                 (proxy.text(rules=[]), 0), (proxy.text(rules=[other]), 1), ('# moved\n' + OTHER + proxy.text(others=''), 2),
                 *((proxy.text(tables=[table]), 2) for table in ALIKE),
                 ('\n    '.join(['listen www', *body, 'default_backend b']) + f'\n{OTHER}backend b\n    server s {served}\n', 2),
                 (f'backend b\n    server s {served}\n{OTHER}' + '\n    '.join(['frontend www', *body, 'default_backend b']) + '\n', 2)]
        for version, (text, rules) in enumerate(texts, start=2):
            proxy.write(text)
            found = proxy.reload()
            assert found == (0, f'Reloaded: version {version}, {rules} rules, server {served}.\n', ''), found
            assert proxy.counts_of_reloads() == (version, version - 1, 0), proxy.counts_of_reloads()
            with proxy.connect() as client:
                assert is_greeted(client), text
        def told():
            return [line for line in proxy.said() if 'reloaded: version' in line]
        wait_for('each is told', lambda: len(told()) >= len(texts))
        lines = told()
        assert len(lines) == len(texts) and all(line.startswith('[INFO ') for line in lines), lines
        assert all(f'version {version}, ' in line and f'server {served}' in line for version, line in enumerate(lines, start=2)), lines


def a_new_version_judges():
    """After an answer, rules judge that weren't there before, by the counts that were there before; and who was admitted stays."""
    with reloadable(TRACK, reject_above(2)) as proxy:
        first = [proxy.connect() for _ in range(2)]
        assert all(map(is_greeted, first)) and not is_greeted(arrive(proxy))
        assert proxy.takes(rules=[TRACK, reject_above(3)]) == 2
        first.append(proxy.connect())
        assert is_greeted(first[2]) and not is_greeted(arrive(proxy))
        assert proxy.takes(rules=[TRACK, f'{REJECT} if {{ sc0_conn_cnt gt 6 }}']) == 3
        with proxy.connect() as sixth:
            assert is_greeted(sixth)
        assert not is_greeted(arrive(proxy)), 'the seventh'
        assert proxy.takes(rules=[]) == 4
        with proxy.connect() as untracked:
            assert is_greeted(untracked)
        row = proxy.rows()['127.0.0.1']
        assert (row['conn_cnt'], row['use']) == (7, 3), row
        for client in first:
            client.close()
        proxy.settles()


def options_are_those_of_the_start():
    """Options of the start hold of what is reloaded, and are no change: shards, purge, prefixes, and further addresses."""
    second = free_port()
    words = ['--shards', '4', '--purge', '16', '--ipv4-prefix', '24', '--bind', f'127.0.0.1:{second}']
    with reloadable(TRACK, words=words) as proxy:
        assert proxy.takes(rules=[TRACK, reject_above(1)]) == 2
        with proxy.connect('127.0.0.1') as client:
            assert is_greeted(client)
            assert not is_greeted(arrive(proxy, '127.0.0.2')), 'of one prefix'
            with socket.create_connection(('127.0.0.1', second), PATIENCE, ('127.0.1.1', 0)) as other:
                assert other.recv(1) == b'+', 'at the other address'
        assert set(proxy.rows()) == {'127.0.0.0', '127.0.1.0'}, proxy.rows()


def warns(proxy, text, *told):
    """That warnings with these words are said on standard error as this is reloaded, each once."""
    proxy.write(text)
    assert proxy.asks().startswith('Reloaded: '), text

    def warnings():
        return [line for line in proxy.said() if 'stickd: ' in line and any(part in line for part in told)]
    wait_for(f'it is warned of {told}', lambda: len(warnings()) >= len(told))
    assert len(warnings()) == len(told), warnings()


def what_lines_say_to_no_end_is_told_again():
    """What a start says of lines that are read past, and of those that come to nothing, is said as they are reloaded."""
    with reloadable(TRACK) as proxy:
        text = proxy.text(rules=['acl far src 10.0.0.0/8', 'option tcplog', TRACK])
        warns(proxy, text, 'Line 4: no rule below it uses this acl', 'line 5: read past')


def changes(proxy, text):
    """Which lines are told to have changed as this is reloaded, in their order."""
    proxy.write(text)
    before = len(proxy.said())
    assert proxy.asks().startswith('Reloaded: '), text
    wait_for('it is told that it was reloaded', lambda: any('reloaded: version ' in line for line in proxy.said()[before:]))
    told = (re.fullmatch(r'\[INFO +tcp_proxy::changed_lines\] (.*)', line) for line in proxy.said()[before:])
    return [found[1] for found in told if found]


def lines_that_change_are_told():
    """The lines that are gone and those that are new, by their words and numbers: not what is moved, spaced or commented otherwise, and of
    many the first 20."""
    strict = f'{REJECT} if {{ sc0_conn_cur gt 1 }}'
    with reloadable(TRACK, reject_above(2)) as proxy:
        first = proxy.text()
        lax = next(at for at, line in enumerate(first.splitlines(), 1) if line.strip() == reject_above(2))
        new = first.replace(reject_above(2), f'acl far src 10.0.0.0/8\n    {strict} or far')
        assert changes(proxy, new) == [f'line {lax} is gone: {reject_above(2)}', f'line {lax} is new: acl far src 10.0.0.0/8',
                                       f'line {lax + 1} is new: {strict} or far'], 'of the version before'
        assert changes(proxy, '# nothing\n' + new.replace(strict, strict.replace(' ', ' \t')) + '    # more\n') == [], 'which says the same'
        many = '\n    '.join(f'{REJECT} if {{ src 10.0.0.{host} }}' for host in range(25))
        told = changes(proxy, first.replace(reject_above(2), many))
        assert told[2:] == [*(f'line {lax + host} is new: {REJECT} if {{ src 10.0.0.{host} }}' for host in range(20)),
                            '5 lines more of which that is so'], told
        assert changes(proxy, first + '#' * 33_000) == ["which lines changed isn't told of more than 32768 bytes"]


def what_rules_say_to_no_end_is_told_again():
    """What a start warns of the rules is said as they are reloaded: patterns of mapped addresses, and limits that let in what isn't
    tracked."""
    with reloadable(TRACK, tables=['stick-table type ip size 5 store conn_cur,conn_cnt']) as proxy:
        warns(proxy, proxy.text(rules=[TRACK, f'{REJECT} if {{ src ::ffff:10.0.0.1 }}']), 'Rule 2: a pattern in ::ffff:0:0/96')
        warns(proxy, proxy.text(rules=[TRACK, reject_above(2)]), 'In table www, sc0 may want')


class Levelled(Reloaded):
    """The program with a stats socket of each level."""

    def start(self):
        self.stats = os.path.join(self.room.name, 'stats')
        self.below = {level: f'{self.stats}.{level}' for level in ('user', 'operator')}
        for level, path in (('admin', self.stats), *self.below.items()):
            self.words += ['--stats-socket', f'{path},level={level}']
        super().start()


def administrators_alone_may():
    """A user and an operator are denied, with status 1, and nothing is read; and the command socket takes no reload."""
    with Server(greets) as server, Levelled(server.port) as proxy:
        proxy.write(proxy.text(rules=NOBODY))
        for level, path in proxy.below.items():
            assert reload(path) == (1, '', 'stickd: Permission denied\n'), (level, reload(path))
        assert proxy.command('reload\n').startswith('Unknown command.')
        assert reload(proxy.path) == (1, '', f"stickd: {proxy.path} doesn't take 'reload'\n"), reload(proxy.path)
        assert proxy.counts_of_reloads() == (1, 0, 0), proxy.counts_of_reloads()
        with proxy.connect() as client:
            assert is_greeted(client)
        assert proxy.reload()[0] == 0
        assert not is_greeted(arrive(proxy)), 'an administrator may'


def who_can_not_be_asked():
    """Nobody at the path is told, with status 1; so is a program that stands still, once its time is over."""
    with reloadable(TRACK) as proxy:
        none = f'{proxy.room.name}/none'
        found = reload(none)
        assert found == (1, '', f"stickd: {none} can't be reached: No such file or directory (os error 2)\n"), found
        with proxy.stopped():
            status, written, said = reload(proxy.stats, '--timeout', '1s')
            assert (status, written, said) == (1, '', f'stickd: the program at {proxy.stats} has said nothing for 1000 ms\n'), said
        done = subprocess.run([stickd(), 'reload'], stdin=subprocess.DEVNULL, capture_output=True, text=True, timeout=PATIENCE, check=False)
        assert done.returncode == 2 and '--stats-socket' in done.stderr, done


def a_program_that_stops_is_not_reloaded():
    """Once a drain has begun a reload is refused, whatever its file is; who is open goes on."""
    with FarServer() as server, Reloaded(server.port, (TRACK,), '--drain', '1m') as proxy:
        client, far = server.joined(proxy)
        assert proxy.told('shutdown frontend www').strip() == ''
        newcomers_before_refusals(proxy, within=2)
        for text in (proxy.text(rules=NOBODY), 'nonsense\n'):
            proxy.write(text)
            found = proxy.reload()
            assert found == refused('it stops.'), found
        client.sendall(b'still')
        assert far.recv(9) == b'still' and proxy.program.poll() is None
        client.close()
        far.close()
        assert proxy.ended()[0] == 0


def several_ask_at_once():
    """Of eight that ask at once each is answered by a version of its own."""
    with reloadable(TRACK) as proxy:
        running = [subprocess.Popen([stickd(), 'reload', '--stats-socket', proxy.stats], stdin=subprocess.DEVNULL, stdout=subprocess.PIPE,
                                    text=True) for _ in range(8)]
        written = [one.communicate(timeout=PATIENCE)[0] for one in running]
        versions = sorted(int(text.split()[2].rstrip(',')) for text in written)
        assert versions == list(range(2, 10)), written
        assert proxy.counts_of_reloads() == (9, 8, 0), proxy.counts_of_reloads()


TRIALS = [a_file_that_is_no_file_changes_nothing, what_takes_a_restart_is_told, where_clients_come_and_go_is_looked_at_first,
          a_table_with_too_few_places_changes_its_size, a_file_of_haproxys_takes_a_restart, what_may_change_is_taken, a_new_version_judges,
          options_are_those_of_the_start, what_lines_say_to_no_end_is_told_again, what_rules_say_to_no_end_is_told_again,
          lines_that_change_are_told, administrators_alone_may, who_can_not_be_asked, a_program_that_stops_is_not_reloaded, several_ask_at_once]
