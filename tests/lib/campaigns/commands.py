"""Random bytes as a script and on the socket of a running proxy, and random commands in words of the grammar."""
import ipaddress
import re
import socket
import tempfile
import threading

from lib.campaigns.parts import Draw, Report, run, write_file
from lib.places import stickd
from lib.proxy import PATIENCE, TABLE, TRACK, Proxy, Server, echoes, read_all

# The longest line that is read, in bytes.
LONGEST = 16_384
# What a byte is changed to, so that lines are short and have the words of commands, but no digit: none begins with a moment.
LETTERS = b'cmd show tablekeyopencls\t;\r\n\n\0\xff '
SHORTER = bytes(LETTERS[byte % len(LETTERS)] for byte in range(256))
# How many bytes a client of the socket sends.
PIECE = 1_000_000

OPERATORS = ['eq', 'ne', 'le', 'ge', 'lt', 'gt']
# The tables of the random commands: nothing of them depends on the moment, and there is always room, so that answers are the
# same in any number of shards.
TIMELESS = {
    'addresses': ('stick-table type ip size 8k store gpc0,gpt0,conn_cnt,conn_cur', 'ip', 8192),
    'wide': ('stick-table type ipv6 size 8k nopurge store bytes_in_cnt,gpc1', 'ipv6', 8192),
    'numbers': ('stick-table type integer size 8k', 'integer', 8192),
    'texts': ('stick-table type string len 8 size 8k store gpt0,bytes_out_cnt', 'string', 8192),
}
# Others are small, and have dates and rates.
TIMED = {
    'addresses': ('stick-table type ip size 5 expire 2s store gpc0,conn_cur,conn_rate(1s)', 'ip', 5),
    'wide': ('stick-table type ipv6 size 3 nopurge expire 1s store gpc1', 'ipv6', 3),
    'numbers': ('stick-table type integer size 7 store gpc0,gpc0_rate(10s),sess_cnt', 'integer', 7),
    'texts': ('stick-table type string len 4 size 4 expire 500ms store gpt0', 'string', 4),
}
KEYS = {'ip': ['10.0.0.%d', '127.0.%d.1'], 'ipv6': ['2001:db8::%d', '::ffff:10.0.0.%d', '%d::'],
        'integer': ['%d', '0%d', '42949672%d'], 'string': ['key%d', 'x%d=y', 'caf\u00e9%d', 'long-text-%d']}
DATA = ['gpc0', 'gpt0', 'gpc1', 'conn_cnt', 'conn_cur', 'conn_rate', 'sess_cnt', 'bytes_in_cnt', 'bytes_out_cnt', 'gpc0_rate', 'nothing']
ERRORS = ['Unknown command.', 'No such table.', 'Invalid key.', 'Data type not stored in this table.', "Data type can't be set.",
          'Invalid value.', 'Entry currently in use, cannot remove.', 'Key not present.', 'Table full.']
HEADER = re.compile(r'# table: (\S+), type: (ip|ipv6|integer|string), size:(\d+), used:(\d+)')
ROW = re.compile(r'0x0: key=(\S+) use=(\d+) exp=(\d+)((?: [a-z_0-9]+(?:\(\d+\))?=\d+)*)')


def random_bytes(seed, count):
    """So many bytes: half of them any, half short lines with the words of commands."""
    draw = Draw('bytes', seed)
    return draw.randbytes(count // 2) + draw.randbytes(count - count // 2).translate(SHORTER)


def scripts(given):
    """Random bytes as a script: each line that isn't empty is a bad line, the first ten are named, and the status is 0."""
    report, text = Report(), random_bytes(given.seed, given.count)
    bad = [number for number, line in enumerate(text.split(b'\n'), 1) if line]
    lines = len(bad)
    ran = run([stickd(), 'replay'], text)
    said = b''.join(b'stickd: script line %d: bad line\n' % number for number in bad[:10])
    said += b'stickd: %d bad lines in all\n' % lines if lines > 10 else b''
    wanted = 0, b'bad line\n' * lines, said
    report.check(ran[:3] == wanted, f'{lines} bad lines are wanted, {ran.stdout.count(b"bad line")} came: {ran[0]}, {ran[2]!r}')
    report.tell(f'{given.count} bytes, {lines} lines, {ran.seconds:.1f} s')
    return report


def command_count(text):
    """How many commands with words there are."""
    count = 0
    for line in text.split(b'\n'):
        if len(line) > LONGEST:
            count += 1
            continue
        line = line[:-1] if line.endswith(b'\r') else line
        count += sum(1 for command in line.split(b';') if command.strip(b' \t'))
    return count


def converse(path, text):
    """What a client of a socket is answered who reads while he sends."""
    with socket.socket(socket.AF_UNIX) as stream:
        stream.settimeout(PATIENCE)
        stream.connect(path)
        sender = threading.Thread(target=lambda: (stream.sendall(text), stream.shutdown(socket.SHUT_WR)))
        sender.start()
        answers = read_all(stream)
        sender.join()
        return answers


def vanish_amid(path, text):
    """A client of a socket that sends as much as is taken, reads nothing and is gone."""
    with socket.socket(socket.AF_UNIX) as stream:
        stream.connect(path)
        stream.setblocking(False)
        stream.send(text)


def bytes_on_the_socket(given):
    """Random bytes on the socket of a running proxy: each command is unknown, and the next client is answered; so it is where one
    that sends them is gone."""
    report, text = Report(), random_bytes(given.seed, given.count)
    with Server(echoes) as server, Proxy(server.port, [TABLE, TRACK]) as proxy:
        for first in range(0, len(text), PIECE):
            piece = text[first:first + PIECE]
            answers, wanted = converse(proxy.path, piece), b'Unknown command.\n\n' * command_count(piece)
            report.check(answers == wanted, f'bytes from {first} on: {len(wanted)} bytes are wanted, {len(answers)} came')
            vanish_amid(proxy.path, piece)
            header = '# table: www, type: ip, size:1024, used:0\n\n'
            report.check(proxy.command('show table www\n') == header, f'nobody answers behind the bytes from {first} on')
    return report


def value(draw):
    return draw.choice([draw.number(0, 5), draw.number(0, 5), draw.number(0, 2 ** 32), draw.number(0, 2 ** 64 - 1), '-1', '18446744073709551616', ''])


def datum(draw):
    return 'data.' + draw.choice(DATA)


def plausible_command(draw, tables):
    """A command in words of the grammar; once in eight times with a word less, twice or elsewhere."""
    table = draw.choice([*tables, *tables, 'u'])
    kind = tables.get(table, ('', 'ip'))[1] if not draw.chance(10) else draw.choice(list(KEYS))
    key = ['key', draw.choice(KEYS[kind]) % draw.randrange(40)]
    filtered = [datum(draw), draw.choice([*OPERATORS, 'is']) if draw.chance(9) else draw.choice(OPERATORS), value(draw)]
    pairs = [word for _ in range(draw.randrange(4)) for word in (datum(draw), value(draw))]
    command = draw.choice(['set', 'set', 'set', 'show', 'clear'])
    tail = [*key, *pairs] if command == 'set' else draw.choice([key, key, filtered, []])
    words = [command, 'table', table, *tail] if not draw.chance(12) else ['show', 'table']
    if draw.chance(8):
        place = draw.randrange(len(words))
        words[place:place + 1] = draw.choice([[], [words[place]] * 2, [draw.choice(words)]])
    return draw.choice([' ', ' ', '  ', '\t']).join(words)


def plausible_lines(draw, tables, count):
    """Lines with so many commands at least, up to four in a line."""
    lines, commands = [], 0
    while commands < count:
        line = ';'.join(plausible_command(draw, tables) for _ in range(draw.randint(1, 4)))
        lines.append(line + draw.choice(['', '', ';', ' ', '\r']))
        commands += command_count(lines[-1].encode())
    return lines, commands


def answers_of(text):
    """The answers that stand in a text: the lines of each, without the empty one that ends it. None where a last one isn't
    ended."""
    answers, lines = [], []
    for line in text.decode('utf-8', 'replace').split('\n')[:-1]:
        if line:
            lines.append(line)
        else:
            answers.append(lines)
            lines = []
    return None if lines or not text.endswith(b'\n') else answers


def key_bytes(kind, text):
    """The bytes of a key that is printed so."""
    if kind == 'integer':
        return int(text).to_bytes(4, 'big')
    if kind == 'string':
        return re.sub(rb'\\x([0-9a-f]{2})', lambda match: bytes([int(match[1], 16)]), text.encode())
    address = ipaddress.IPv4Address(text) if kind == 'ip' else ipaddress.IPv6Address(text)
    return address.packed


def is_listing(lines, tables, is_whole):
    """Whether a header and its rows are well formed: the table's own type and size, no more entries than places, rows in the order
    of the keys' bytes and each once; where all are listed, as many as the header says."""
    header = HEADER.fullmatch(lines[0])
    rows = [ROW.fullmatch(line) for line in lines[1:]]
    if header is None or header[1] not in tables or not all(rows):
        return False
    _, kind, size = tables[header[1]]
    keys = [key_bytes(kind, row[1]) for row in rows]
    stored = {tuple(re.findall(r' ([a-z_0-9]+(?:\(\d+\))?)=', row[4])) for row in rows}
    in_order = all(before < after for before, after in zip(keys, keys[1:]))
    used = int(header[4])
    well_counted = used == len(rows) if is_whole else used >= len(rows)
    return (header[2], int(header[3])) == (kind, size) and in_order and well_counted and used <= size and len(stored) <= 1


def is_answer(lines, tables):
    """Whether a command may be answered so: by nothing, one error, a listing, or the headers of all tables."""
    if not lines or lines[0] in ERRORS:
        return len(lines) <= 1
    if all(HEADER.fullmatch(line) for line in lines) and len(lines) == len(tables):
        return [HEADER.fullmatch(line)[1] for line in lines] == list(tables)
    return is_listing(lines, tables, is_whole=False)


def configuration(tables, *more):
    """The text of a configuration with these tables, and the lines of a proxy."""
    lines = [f'backend {name}\n    {words}\n' for name, (words, _, _) in tables.items()]
    return ''.join(lines) + ''.join(f'{line}\n' for line in more)


def check_answers(report, name, text, commands, tables):
    """Checks the answers to so many commands, behind which each table was listed."""
    answers = answers_of(text)
    count = commands + len(tables)
    report.check(answers is not None and len(answers) == count, f'{name}: {count} answers are wanted: {text[-300:]!r}')
    for lines in answers or []:
        report.check(is_answer(lines, tables), f'{name}: {lines}')
    for table, lines in zip(tables, (answers or [])[commands:]):
        report.check(lines and is_listing(lines, tables, is_whole=True), f'{name}: table {table}: {lines}')


def replayed(program, room, tables, lines, pace, *words):
    """What a replay of lines answers, so many ms apart, and then of a listing of each table."""
    conf = write_file(room, 'tables.cfg', configuration(tables))
    lines = lines + [f'show table {table}' for table in tables]
    script = ''.join(f'{number * pace} cmd {line}\n' for number, line in enumerate(lines))
    return run([program, 'replay', conf, *words], script.encode())


def commands(given):
    """Random commands in words of the grammar: on small tables with dates and rates each answer has a form that there is, and the
    listings at the end are well formed; on others a replay in one shard, in seven, and a running proxy answer the same."""
    report, draw = Report(), Draw('commands', given.seed)
    with tempfile.TemporaryDirectory() as room:
        lines, count = plausible_lines(draw, TIMED, given.count // 2)
        ran = replayed(stickd(), room, TIMED, lines, 7)
        report.check((ran.status, ran.stderr) == (0, b''), f'a replay: {ran[0]}, {ran[2]!r}')
        check_answers(report, 'timed', ran.stdout, count, TIMED)
        lines, count = plausible_lines(draw, TIMELESS, given.count // 2)
        ran = replayed(stickd(), room, TIMELESS, lines, 1)
        check_answers(report, 'timeless', ran.stdout, count, TIMELESS)
        apart = replayed(stickd(), room, TIMELESS, lines, 1, '--shards', '7')
        report.check(apart[:3] == ran[:3], 'seven shards answer otherwise than one')
    with Server(echoes) as server, Proxy(server.port, [], others=configuration(TIMELESS)) as proxy:
        whole = [*lines, *(f'show table {table}' for table in TIMELESS)]
        answers = converse(proxy.path, ''.join(f'{line}\n' for line in whole).encode())
        wanted = ran.stdout
        report.check(answers == wanted, f'the socket answers otherwise: {first_difference(wanted, answers)}')
    return report


def first_difference(wanted, found):
    """Where two texts begin to differ."""
    place = next((at for at, pair in enumerate(zip(wanted, found)) if pair[0] != pair[1]), min(len(wanted), len(found)))
    return f'{wanted[place - 80:place + 80]!r} and {found[place - 80:place + 80]!r}'
