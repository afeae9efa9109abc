"""Trials of what is told of tables while they are full, purge, and lend references."""
import re
import time

from lib.operations.watched import Watched
from lib.proxy import PATIENCE, TRACK, Server, arrive, greets, is_greeted, wait_for

UNTRACKED = 'stickd_untracked_total{cause="full"}'
REFERENCES = 'stickd_table_references{table="www"}'
PURGED = 'stickd_table_purged_entries_total{table="www"}'


def small_table(server, *words, size=4, ending=''):
    """The program at work on a table of so few entries, in one shard."""
    table = f'stick-table type ip size {size} expire 10m{ending} store conn_cur,conn_cnt'
    return Watched(server.port, [table, TRACK], '--shards', '1', *words, threads=2)


def visit(proxy, number):
    """A client from an address of its own that is greeted and goes."""
    with arrive(proxy, f'127.0.2.{number}') as client:
        assert is_greeted(client)


def full_tables_are_told():
    """A table with `nopurge` that is full leaves clients untracked. How many is told, and a line a second at most says so."""
    with Server(greets) as server, small_table(server, '--report', '10m', ending=' nopurge') as proxy:
        for number in range(1, 5):
            visit(proxy, number)
        wait_for('all four are counted', lambda: proxy.metrics()['stickd_connections_ended_total'] == 4)
        shown = proxy.metrics()
        assert shown[UNTRACKED] == 0 and shown[PURGED] == 0 and shown['stickd_table_entries{table="www"}'] == 4, shown
        for number in range(5, 12):
            visit(proxy, number)
        wait_for('seven more are counted', lambda: proxy.metrics()['stickd_connections_ended_total'] == 11)
        shown = proxy.metrics()
        assert shown[UNTRACKED] == 7 and shown[PURGED] == 0 and shown['stickd_table_entries{table="www"}'] == 4, shown
        assert shown['stickd_untracked_total{cause="references"}'] == 0, shown
        time.sleep(1.5)
        lines = [line for line in proxy.killed() if 'not tracked' in line and 'connections:' not in line and ' accepted' not in line]
        told = [int(re.search(r'(\d+) not tracked as a table was full', re.sub(r'<\d>', '', line))[1]) for line in lines]
        assert 1 <= len(lines) <= 4 and sum(told) == 7, lines


def purged_entries_are_told():
    """A full table tells how many entries went to make room, and that none of them was let go for another cause."""
    with Server(greets) as server, small_table(server) as proxy:
        for number in range(1, 11):
            visit(proxy, number)
            wait_for('it has gone', lambda: proxy.metrics()[REFERENCES] == 0)
        shown = proxy.metrics()
        assert shown[PURGED] == 6 and shown['stickd_table_entries{table="www"}'] == 4 and shown[UNTRACKED] == 0, shown
        assert proxy.command('clear table www\n').strip() == ''
        shown = proxy.metrics()
        assert shown[PURGED] == 6 and shown['stickd_table_entries{table="www"}'] == 0, shown


def references_are_told():
    """The references that are out are told while connections hold them, also in a report, and none once they have gone."""
    with Server(greets) as server, small_table(server, '--report', '1s', size=100) as proxy:
        clients = [proxy.connect(f'127.0.2.{number % 3 + 1}') for number in range(9)]
        assert all(is_greeted(client) for client in clients)
        wait_for('nine are out', lambda: proxy.metrics()[REFERENCES] == 9)
        time.sleep(1.2)
        for client in clients:
            client.close()
        wait_for('none is out', lambda: proxy.metrics()[REFERENCES] == 0, PATIENCE)
        time.sleep(1.2)
        lines = [line for line in proxy.killed() if 'www: ' in line]
        assert any(line.endswith('www: 3 of 100 entries, 9 references out') for line in lines), lines
        assert lines[-1].endswith('www: 3 of 100 entries'), lines


TRIALS = [full_tables_are_told, purged_entries_are_told, references_are_told]
