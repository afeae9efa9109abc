"""What trials of clients that begin by a proxy's header share: the program that accepts headers, such clients, and what it counts."""
import contextlib
import ipaddress
import socket

from lib.operations.told import are_ends_of
from lib.operations.watched import Watched
from lib.proxy import PATIENCE, TRACK, Server, arrive, end_of, greets, hears_end, wait_for

# The networks whose clients begin by a header, and the table that has keys of both families.
HERE = '127.0.0.0/8'
TABLE = 'stick-table type ipv6 size 1k store conn_cur,conn_cnt,bytes_in_cnt,bytes_out_cnt'
WORDS = ('--accept-proxy', HERE)
CAUSES = ('late', 'wrong', 'ended', 'untrusted')
METRICS = {
    **{name: f'stickd_connections_{name}_total' for name in ('accepted', 'admitted', 'rejected')},
    'headers': 'stickd_headers_total',
    **{cause: f'stickd_header_failures_total{{cause="{cause}"}}' for cause in CAUSES},
    'in': 'stickd_bytes_total{direction="in"}',
}


@contextlib.contextmanager
def accepting(*words, serve=greets, rules=(), **others):
    """The program at work, whose clients begin by a header unless other networks are told."""
    nets = () if '--accept-proxy' in words else WORDS
    with Server(serve) as server, Watched(server.port, [TABLE, TRACK, *rules], *nets, *words, **others) as proxy:
        yield proxy


def counts(proxy):
    """What is counted of clients and headers."""
    shown = proxy.metrics()
    return {name: shown[metric] for name, metric in METRICS.items()}


def are_counted(proxy, **wanted):
    """Waits until no connection is open and so many are counted, of each name that is told. Those that aren't told are none."""
    wanted = {**dict.fromkeys(METRICS, 0), **wanted}
    with contextlib.suppress(AssertionError):
        wait_for('counts', lambda: proxy.metrics()['stickd_connections'] == 0 and counts(proxy) == wanted)
    shown = counts(proxy)
    assert shown == wanted, {name: (shown[name], wanted[name]) for name in METRICS if shown[name] != wanted[name]}


def begins(proxy, sent, source='127.0.0.1'):
    """A client that has sent this, each time at once."""
    client = proxy.connect(source)
    client.setsockopt(socket.IPPROTO_TCP, socket.TCP_NODELAY, 1)
    # It may be reset before all of it is sent.
    with contextlib.suppress(ConnectionError):
        client.sendall(sent)
    return client


def how_ends(client):
    """How a connection ends for a client that hasn't ended its side. Where it was reset while the client sent, the system has told of that
    by then, and a read finds an end."""
    ending = end_of(client)
    return 'reset' if ending == 'orderly' and hears_end(client, 0) else ending


def is_reset_unread(proxy, sent, source):
    """Whether a client that sends this is reset. It may be so before it knows that it is connected."""
    client = arrive(proxy, source)
    if client is None:
        return True
    with client:
        with contextlib.suppress(ConnectionError):
            client.sendall(sent)
        return how_ends(client) == 'reset'


def as_key(address):
    """The key of an address in a table of both families, to be compared."""
    address = ipaddress.ip_address(address)
    return ipaddress.ip_address(f'::ffff:{address}') if address.version == 4 else address


def tells_as_it_should(fate, told, client):
    """Whether the ends that a server was told are those of its client's header or, where that tells none, those of its client."""
    return tuple((ipaddress.ip_address(address), port) for address, port in told) == fate.ends if fate.ends else are_ends_of(told, client)


def keys(proxy, **data):
    """The keys of the table, or of those entries that have these data."""
    return {as_key(key) for key, row in proxy.rows().items() if all(row[name] == number for name, number in data.items())}


def is_quiet(client, seconds):
    """Whether nothing comes to a client for so long, no end either."""
    client.settimeout(seconds)
    try:
        client.recv(1)
    except TimeoutError:
        return True
    except ConnectionError:
        pass
    finally:
        client.settimeout(PATIENCE)
    return False
