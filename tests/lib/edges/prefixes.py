"""Trials of limits by network: all clients of one network are one, and each other network has a limit of its own."""
import concurrent.futures
import contextlib
import socket
import subprocess

from lib.proxy import PATIENCE, TRACK, Proxy, Server, free_port, greets, is_greeted, reject_above, wait_for
from lib.trials import NotMade, wants

LIMIT = 3
# The networks of the trial by IPv6, whose addresses the loopback device is given for as long as it takes.
NETWORKS = ['2001:db8:57:1', '2001:db8:57:2']
ADDRESSES = 12


def come_from(port, family, host, source):
    """A client from this address that has heard whether it was admitted; none where it was rejected."""
    client = socket.socket(family)
    client.settimeout(PATIENCE)
    client.bind((source, 0))
    with contextlib.suppress(ConnectionResetError, BrokenPipeError):
        client.connect((host, port))
        if is_greeted(client):
            return client
    client.close()
    return None


def come_at_once(port, family, host, sources):
    """The clients that were admitted, of those from these addresses that come at once."""
    with concurrent.futures.ThreadPoolExecutor(len(sources)) as pool:
        return [client for client in pool.map(lambda source: come_from(port, family, host, source), sources) if client]


def held_in(proxy):
    """How many connections each key of the table has."""
    return {key: row['conn_cur'] for key, row in proxy.rows().items() if row['use']}


def are_one(proxy, port, family, host, networks):
    """Of each network so many clients get in as the limit says, however many addresses they come from; and once one has gone,
    another may come. Each network is a key: its first address."""
    clients = []
    for sources in networks.values():
        came = come_at_once(port, family, host, sources)
        assert len(came) == LIMIT, f'{len(came)} of {len(sources)} addresses of one network'
        clients.append(came)
    wait_for('the rejected ones are gone', lambda: held_in(proxy) == dict.fromkeys(networks, LIMIT))
    for came, (key, sources) in zip(clients, networks.items()):
        came.pop().close()
        wait_for('one is gone', lambda key=key: held_in(proxy)[key] == LIMIT - 1)
        came.append(come_from(port, family, host, sources[-1]))
        assert came[-1] and not come_from(port, family, host, sources[0])
    for client in (client for came in clients for client in came):
        client.close()


def an_ipv4_network_is_one_client():
    """With --ipv4-prefix 24, of 12 addresses of one network three connections are admitted, and of another network three more.
    Without it each address has its own three."""
    networks = {f'127.0.{third}.0': [f'127.0.{third}.{last}' for last in range(1, ADDRESSES + 1)] for third in (57, 58)}
    rules = ['stick-table type ip size 1k store conn_cur', TRACK, reject_above(LIMIT)]
    with Server(greets) as server:
        with Proxy(server.port, rules, '--ipv4-prefix', '24') as proxy:
            are_one(proxy, proxy.port, socket.AF_INET, '127.0.0.1', networks)
        with Proxy(server.port, rules) as proxy:
            for sources in networks.values():
                for client in (came := come_at_once(proxy.port, socket.AF_INET, '127.0.0.1', sources)):
                    client.close()
                assert len(came) == len(sources), f'{len(came)} of {len(sources)} addresses'


@contextlib.contextmanager
def addresses_of_loopback(addresses):
    """Gives the loopback device these addresses. Whether it has taken them."""
    given = []
    try:
        for address in addresses:
            words = ['ip', '-6', 'addr', 'add', address + '/128', 'dev', 'lo', 'nodad']
            if subprocess.run(words, capture_output=True, check=False, timeout=PATIENCE).returncode:
                break
            given.append(address)
        yield len(given) == len(addresses)
    finally:
        for address in given:
            subprocess.run(['ip', '-6', 'addr', 'del', address + '/128', 'dev', 'lo'], check=False, timeout=PATIENCE)


def an_ipv6_network_is_one_client():
    """With --ipv6-prefix 64 the same of IPv6, at [::1], where the loopback device takes addresses; else the rows of
    tests/rows/prefixes.sessions stand for it."""
    wants('ip')
    networks = {f'{network}::': [f'{network}::{last:x}' for last in range(1, ADDRESSES + 1)] for network in NETWORKS}
    rules = ['stick-table type ipv6 size 1k store conn_cur', TRACK, reject_above(LIMIT)]
    with addresses_of_loopback([address for sources in networks.values() for address in sources]) as are_there:
        if not are_there:
            raise NotMade('the loopback device takes no IPv6 addresses here')
        port = free_port()
        words = ['--bind', f'[::1]:{port}', '--ipv6-prefix', '64']
        with Server(greets) as server, Proxy(server.port, rules, *words) as proxy:
            are_one(proxy, port, socket.AF_INET6, '::1', networks)


TRIALS = [an_ipv4_network_is_one_client, an_ipv6_network_is_one_client]
