"""Headers of the PROXY protocol as trials send them: how they are made, and the table of those that others have sent."""
import collections
import ipaddress
import os
import struct

from lib.places import ROWS
from lib.rows import blocks_of, expanded

# How a header of version 2 begins, and its commands (section 2.2 of the standard).
SIGNATURE = b'\r\n\r\n\0\r\nQUIT\n'
LOCAL, PROXY = 0x20, 0x21
SERVER, CLIENT_PORT, SERVER_PORT = '192.0.2.1', 1234, 80

# A header of the table: its name, its bytes, and what is made of it, by stickd and by HAProxy.
Row = collections.namedtuple('Row', 'name header fate haproxys')
# What is made of a header: told, real, wrong or waits; and the ends that it tells, as pairs of an address and a port.
Fate = collections.namedtuple('Fate', 'word ends')


def line(source, destination=SERVER, ports=(CLIENT_PORT, SERVER_PORT)):
    """A header of version 1."""
    family = 4 if ipaddress.ip_address(source).version == 4 else 6
    return f'PROXY TCP{family} {source} {destination} {ports[0]} {ports[1]}\r\n'.encode()


def binary(source, destination=SERVER, ports=(CLIENT_PORT, SERVER_PORT), more=b'', command=PROXY):
    """A header of version 2, with what stands in it behind the ports."""
    ends = [ipaddress.ip_address(end) for end in (source, destination)]
    block = b''.join(end.packed for end in ends) + struct.pack('>HH', *ports) + more
    return SIGNATURE + struct.pack('>BBH', command, 0x11 if ends[0].version == 4 else 0x21, len(block)) + block


def value(kind, content):
    """A value that may stand behind the ports of version 2."""
    return struct.pack('>BH', kind, len(content)) + content


MAKERS = (line, binary)


def fate_of(text):
    """What is made of a header, as the table has it."""
    word, *ends = text.split()
    return Fate(word, tuple((ipaddress.ip_address(ends[at]), int(ends[at + 1])) for at in range(0, len(ends), 2)))


def rows():
    """The headers of the table."""
    found = []
    for block in blocks_of(os.path.join(ROWS, 'proxy.headers')):
        header = b''.join(expanded(text[2:])[:-1] for text in block.lines if text.startswith('>'))
        fates = [fate_of(text.removeprefix('HAProxy ')) for text in block.lines if text and not text.startswith('>')]
        found.append(Row(block.name, header, fates[0], fates[-1]))
    return found
