"""Trials of clients that begin by a proxy's header (--accept-proxy): what is made of each header, however it comes, and by which
address and ports they are judged."""
import socket
import time

from lib.headers import MAKERS, SIGNATURE, binary, line, rows, value
from lib.operations.headed import (TABLE, WORDS, accepting, are_counted, as_key, begins, how_ends, is_quiet, keys,
                                   tells_as_it_should)
from lib.operations.told import OPTIONS, ends_told, read_exactly, told_and_greeted
from lib.operations.watched import Watched
from lib.proxy import PATIENCE, TRACK, FarServer, Server, echoes, free_port, greets, is_greeted, read_all, reject_above, wait_for

PAYLOAD = b'payload'
CLIENT = '203.0.113.9'
# Headers that are cut: their names in the table.
CUT = ('IPv4 by version 1', 'IPv6 by version 1', 'UNKNOWN', 'IPv4 by version 2', 'IPv6 by version 2', 'LOCAL', 'a value beside the addresses')


def is_passed_on(proxy, server, row, words):
    """Sends a header, and bytes behind it: the server gets those and, with an option, first the ends that the header tells. The table has
    the address that it tells, and no other, as one of a connection."""
    with begins(proxy, row.header + PAYLOAD) as client:
        far, _ = server.listener.accept()
        with far:
            far.settimeout(PATIENCE)
            known, (source, _) = keys(proxy, conn_cur=1, use=1), row.fate.ends[0] if row.fate.ends else client.getsockname()
            assert known == {as_key(source)}, (row.name, known)
            if words:
                told = ends_told(far, words[0])
                assert tells_as_it_should(row.fate, told, client), (row.name, words, told)
            assert read_exactly(far, len(PAYLOAD)) == PAYLOAD, row.name
            client.shutdown(socket.SHUT_WR)
            assert read_all(far) == b'', row.name


def each_header_has_its_fate():
    """Each header of the table, sent whole. Those that tell ends, or none, go to the server, which gets just what follows, and is told the
    ends, by either version; those that are wrong are reset, and those that aren't whole too, in their time."""
    for words in ((), *((option,) for option in OPTIONS)):
        fates = {word: [row for row in rows() if row.fate.word == word] for word in ('told', 'real', 'wrong', 'waits')}
        with FarServer() as server, Watched(server.port, [TABLE, TRACK], *WORDS, '--timeout-header', '2s', *words) as proxy:
            taken = fates['told'] + fates['real']
            for row in taken:
                is_passed_on(proxy, server, row, words)
                wait_for(f'{row.name} has ended', lambda: not keys(proxy, use=1), pause=0.005)
            for row in fates['wrong']:
                with begins(proxy, row.header + PAYLOAD) as client:
                    assert how_ends(client) == 'reset', row.name
            waiting = [begins(proxy, row.header) for row in fates['waits']]
            assert [how_ends(client) for client in waiting] == ['reset'] * len(waiting), words
            wrong, late = len(fates['wrong']), len(waiting)
            are_counted(proxy, accepted=len(taken) + wrong + late, admitted=len(taken), rejected=wrong + late, headers=len(taken), wrong=wrong,
                        late=late, **{'in': len(taken) * len(PAYLOAD)})


def come_in_two(proxy, header):
    """Clients that send a header and bytes in two parts, each cut at another byte; what they are answered."""
    whole = header + PAYLOAD
    clients = [begins(proxy, whole[:cut]) for cut in range(len(whole))]
    time.sleep(0.1)
    for cut, client in enumerate(clients):
        client.sendall(whole[cut:])
        client.shutdown(socket.SHUT_WR)
    answers = []
    for client in clients:
        with client:
            answers.append(read_all(client))
    return answers


def a_header_may_be_cut_anywhere():
    """Headers of both versions that come in two parts, with a pause between: of each length the first part is waited with, and the server
    gets what follows, whole."""
    with accepting('--timeout-header', '1m', serve=echoes) as proxy:
        came = 0
        for row in rows():
            if row.name in CUT:
                answers = come_in_two(proxy, row.header)
                assert answers == [PAYLOAD] * len(answers), (row.name, [answer for answer in answers if answer != PAYLOAD])
                came += len(answers)
        are_counted(proxy, accepted=came, admitted=came, headers=came, **{'in': came * len(PAYLOAD)})


def a_header_may_come_byte_by_byte():
    """Clients that send their headers a byte at a time, all at once: both versions, a value beside the addresses, and the longest line."""
    headers = [line(CLIENT), line('2001:db8::9', '2001:db8::1'), binary(CLIENT), binary('2001:db8::9', '2001:db8::1'),
               binary(CLIENT, more=value(4, b'x' * 60)), b'PROXY UNKNOWN ' + b'x' * 91 + b'\r\n']
    with accepting('--timeout-header', '1m', serve=echoes) as proxy:
        clients = [begins(proxy, b'') for _ in headers]
        for at in range(max(map(len, headers))):
            for client, header in zip(clients, headers):
                client.sendall(header[at:at + 1])
            time.sleep(0.005)
        for client in clients:
            client.sendall(PAYLOAD)
            client.shutdown(socket.SHUT_WR)
        assert [read_all(client) for client in clients] == [PAYLOAD] * len(clients)
        for client in clients:
            client.close()
        are_counted(proxy, accepted=len(headers), admitted=len(headers), headers=len(headers), **{'in': len(headers) * len(PAYLOAD)})


# Beginnings that no header has, and none of which is so without its last byte.
WRONG = [b'G', b'\r\n\r\n\r', b'PROXY\t', SIGNATURE + b'\x22', SIGNATURE + b'\x11', SIGNATURE + b'\x21\x41', SIGNATURE + b'\x21\x13',
         SIGNATURE + b'\x21\x11\x0f\xf1', b'PROXY UNKNOWN ' + b'x' * 93, b'PROXY TCP4 ' + b' ' * 96]


def what_begins_no_header_is_reset_at_once():
    """A client whose bytes can't become a header any more is reset by the first such byte, and not by time. Until then it waits."""
    with accepting('--timeout-header', '1m') as proxy:
        clients = [begins(proxy, sent[:-1]) for sent in WRONG]
        assert [is_quiet(client, 0.1) for client in clients] == [True] * len(clients)
        for client, sent in zip(clients, WRONG):
            client.sendall(sent[-1:])
            assert how_ends(client) == 'reset', sent
            client.close()
        are_counted(proxy, accepted=len(WRONG), rejected=len(WRONG), wrong=len(WRONG))
        assert keys(proxy) == set()


# Rules of what a header tells, each with the clients that it rejects: source, destination, and both ports.
REJECTED = {
    'src 203.0.113.0/24': [('203.0.113.77', '192.0.2.1', (1, 1))],
    'src 2001:db8::/64': [('2001:db8::1', '2001:db8::2', (1, 1))],
    'src_port 7777': [('198.51.100.1', '192.0.2.1', (7777, 1))],
    'dst_port 8888': [('198.51.100.1', '192.0.2.1', (1, 8888))],
}
ADMITTED = [('198.51.100.1', '192.0.2.1', (8888, 7777)), ('2001:db8:1::1', '2001:db8::2', (1, 1)), ('127.0.0.1', '127.0.0.1', (1, 1))]


def rules_judge_by_what_a_header_tells():
    """Rules see the told source and the told ports. Those of the proxy's own address, and of the port that it came to, judge nobody who
    tells another; they do judge who tells none."""
    port = free_port()
    rules = [f'tcp-request connection reject if {{ {criterion} }}' for criterion in (*REJECTED, f'dst_port {port}')]
    with accepting('--bind', f'127.0.0.1:{port}', rules=rules) as proxy:
        for make in MAKERS:
            for ends in ADMITTED:
                with socket.create_connection(('127.0.0.1', port), PATIENCE) as client:
                    client.sendall(make(*ends))
                    assert is_greeted(client), (make.__name__, ends)
            for criterion, rejected in REJECTED.items():
                for ends in rejected:
                    with begins(proxy, make(*ends)) as client:
                        assert how_ends(client) == 'reset', (make.__name__, criterion)
        for at, is_admitted in ((proxy.port, True), (port, False)):
            with socket.create_connection(('127.0.0.1', at), PATIENCE) as client:
                client.sendall(b'PROXY UNKNOWN\r\n')
                assert is_greeted(client) == is_admitted, at
        taken, lost = 2 * len(ADMITTED) + 1, 2 * len(REJECTED) + 1
        are_counted(proxy, accepted=taken + lost, admitted=taken, rejected=lost, headers=taken + lost)


def each_told_source_has_its_own_limit():
    """Twenty sources that one proxy tells, each with three connections and a limit of two: the first two are served, and the third is
    reset. The proxy's own address, which has sixty, limits nobody and has no entry. One more of each comes in once one has gone."""
    with accepting(rules=[reject_above(2)]) as proxy:
        sources = [f'203.0.113.{number}' for number in range(1, 11)] + [f'2001:db8::{number:x}' for number in range(1, 11)]
        held = {}
        for number in range(3):
            for source in sources:
                destination = '2001:db8:1::1' if ':' in source else '192.0.2.1'
                held[source, number] = client = begins(proxy, MAKERS[number % 2](source, destination))
                assert is_greeted(client) == (number < 2), (source, number)
        wait_for('each has two', lambda: keys(proxy) == keys(proxy, conn_cur=2, use=2) == set(map(as_key, sources)))
        for source in sources:
            held[source, 0].close()
        wait_for('each has one', lambda: len(keys(proxy, conn_cur=1)) == len(sources))
        for source in sources:
            with begins(proxy, MAKERS[0](source, '2001:db8:1::1' if ':' in source else '192.0.2.1')) as client:
                assert is_greeted(client), source
            held[source, 1].close()
        for client in held.values():
            client.close()
        are_counted(proxy, accepted=80, admitted=60, rejected=20, headers=80)


def a_server_that_speaks_first_waits_for_the_header():
    """A server that greets isn't connected to before its client's header is whole. Then it greets, though the client says nothing more; and
    with an option it hears the told ends first."""
    for words in ((), *((option,) for option in OPTIONS)):
        heard = []
        serve = told_and_greeted(words[0], heard) if words else greets
        with accepting('--timeout-header', '1m', *words, serve=serve) as proxy, begins(proxy, line(CLIENT)[:-1]) as client:
            assert is_quiet(client, 0.3), words
            assert heard == [] and keys(proxy) == set(), (words, heard)
            client.sendall(line(CLIENT)[-1:])
            assert is_greeted(client), words
            assert keys(proxy, conn_cur=1) == {as_key(CLIENT)}, words
            if words:
                assert heard == [((CLIENT, 1234), ('192.0.2.1', 80))], heard


def a_server_that_comes_late_hears_the_told_ends():
    """A server that refuses twice and then is there gets one header, with the ends that the client's told, and then the client's bytes."""
    for option, make in zip(OPTIONS, MAKERS):
        port = free_port()
        with Watched(port, [TABLE, TRACK], *WORDS, '--retries', '5', option, threads=1) as proxy, begins(proxy, make(CLIENT) + PAYLOAD) as client:
            time.sleep(1.2)
            with socket.create_server(('127.0.0.1', port)) as listener:
                listener.settimeout(PATIENCE)
                far, _ = listener.accept()
                with far:
                    far.settimeout(PATIENCE)
                    assert ends_told(far, option) == ((CLIENT, 1234), ('192.0.2.1', 80)), option
                    client.shutdown(socket.SHUT_WR)
                    assert read_all(far) == PAYLOAD, option


def a_dual_listener_trusts_mapped_proxies():
    """At a listener of both families a proxy of IPv4 comes with a mapped address, and is trusted by its network of IPv4; one of IPv6 by
    its own."""
    both = free_port()
    with accepting('--accept-proxy', '127.0.0.0/8,::1', '--bind', f'[::]:{both}', serve=echoes) as proxy:
        for host in ('127.0.0.1', '::1'):
            for make in MAKERS:
                with socket.create_connection((host, both), PATIENCE) as client:
                    client.sendall(make(CLIENT) + PAYLOAD)
                    client.shutdown(socket.SHUT_WR)
                    assert read_all(client) == PAYLOAD, (host, make.__name__)
        assert keys(proxy) == keys(proxy, conn_cnt=4) == {as_key(CLIENT)}, proxy.rows()


def the_last_of_64_networks_is_trusted():
    """As many networks as there may be: one that only the last holds begins by a header, and so does one at an address of the first."""
    networks = ['127.0.1.9', *(f'2001:db8:{number:x}::/48' for number in range(62)), '127.0.0.0/24']
    with accepting('--accept-proxy', ','.join(networks), serve=echoes) as proxy:
        for source, is_proxy in (('127.0.1.9', True), ('127.0.0.77', True), ('127.0.1.8', False)):
            with begins(proxy, line(CLIENT) + PAYLOAD, source) as client:
                client.shutdown(socket.SHUT_WR)
                assert read_all(client) == (PAYLOAD if is_proxy else line(CLIENT) + PAYLOAD), source


def much_follows_a_header_that_came_late():
    """3,000,000 bytes that come in one piece with the end of a header, and nothing of the header, are what the server gets."""
    heard, sent = [], bytes(range(256)) * 12_000
    with accepting('--timeout-header', '1m', serve=lambda client: heard.append(read_all(client))) as proxy:
        for make in MAKERS:
            with begins(proxy, make(CLIENT)[:7]) as client:
                time.sleep(0.1)
                client.sendall(make(CLIENT)[7:] + sent)
                client.shutdown(socket.SHUT_WR)
                assert read_all(client) == b''
        wait_for('both are heard', lambda: len(heard) == 2)
        assert heard == [sent] * 2, [len(one) for one in heard]
        are_counted(proxy, accepted=2, admitted=2, headers=2, **{'in': 2 * len(sent)})


def without_the_option_a_header_is_bytes():
    """Where no proxy is accepted, and of a client that is none, what looks like a header goes to the server. The client is judged by its
    own address."""
    for words in ((), ('--accept-proxy', '192.0.2.0/24,2001:db8::/32')):
        with Server(echoes) as server, Watched(server.port, [TABLE, TRACK], *words) as proxy:
            for make in MAKERS:
                with begins(proxy, make(CLIENT) + PAYLOAD, '127.0.1.9') as client:
                    client.shutdown(socket.SHUT_WR)
                    assert read_all(client) == make(CLIENT) + PAYLOAD, (words, make.__name__)
            assert keys(proxy) == {as_key('127.0.1.9')}, words
            are_counted(proxy, accepted=2, admitted=2, **{'in': sum(len(make(CLIENT) + PAYLOAD) for make in MAKERS)})


TRIALS = [each_header_has_its_fate, a_header_may_be_cut_anywhere, a_header_may_come_byte_by_byte, what_begins_no_header_is_reset_at_once,
          rules_judge_by_what_a_header_tells, each_told_source_has_its_own_limit, a_server_that_speaks_first_waits_for_the_header,
          a_server_that_comes_late_hears_the_told_ends, a_dual_listener_trusts_mapped_proxies, the_last_of_64_networks_is_trusted,
          much_follows_a_header_that_came_late, without_the_option_a_header_is_bytes]
