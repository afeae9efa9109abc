"""Configurations drawn from the grammar. Each is known to be valid, with how many tables and rules it has and which of its lines
are read past."""
import collections

from lib.campaigns.parts import Draw

PLAIN = ['gpt0', 'gpc0', 'conn_cnt', 'conn_cur', 'sess_cnt', 'bytes_in_cnt', 'bytes_out_cnt', 'gpc1']
RATES = ['gpc0_rate', 'conn_rate', 'sess_rate', 'bytes_in_rate', 'bytes_out_rate', 'gpc1_rate']
FETCHES = ['conn_cnt', 'conn_cur', 'conn_rate', 'sess_cnt', 'sess_rate', 'bytes_in_rate', 'bytes_out_rate', 'gpc0_rate', 'gpc1_rate',
           'get_gpc0', 'get_gpc1', 'get_gpt0', 'kbytes_in', 'kbytes_out']
SLOT_FETCHES = ['inc_gpc0', 'inc_gpc1', 'clr_gpc0', 'clr_gpc1', 'trackers']
OPERATORS = ['eq', 'ge', 'gt', 'le', 'lt']
SIZES = {'': 1, 'k': 1 << 10, 'm': 1 << 20, 'g': 1 << 30}
# The greatest number of each unit of a time.
TIMES = {'': 2147483647, 'us': 2147483647000, 'ms': 2147483647, 's': 2147483, 'm': 35791, 'h': 596, 'd': 24}
READ_PAST = ['option tcplog', 'option "quoted', "timeout client 5s'", 'timeout', 'balance roundrobin', 'maxconn \\x', 'log stdout $HOME']
SKIPPED = ['daemon', 'stick-table size 0', 'mode http', 'x"y', 'acl', 'server s', 'maxconn 5', 'caf\u00e9 $x']
COMMENTS = ['', ' plain', '#', ' "quoted', " it's", ' back\\slash $x', ' caf\u00e9 \u2014 \U0001f600', ' listen not', '\t;']
NAME_BYTES = 'abcXYZ019-_.:'

# A configuration's text, how many tables and rules it has, and which of its lines are read past.
Drawn = collections.namedtuple('Drawn', 'text tables rules past')
# A section: its kind and name, the tables of the file, and whether it has one itself.
Section = collections.namedtuple('Section', 'kind name tables owns')


def ipv4(draw):
    return '.'.join(str(draw.choice([0, 1, 10, 127, 255, draw.randrange(256)])) for _ in range(4))


def ipv6(draw):
    """Eight groups, the last two at times as IPv4 text; at times some of them as `::`."""
    tail = [ipv4(draw)] if draw.chance(4) else []
    groups = [format(draw.choice([0, draw.randrange(16), draw.getrandbits(16)]), draw.choice(['x', 'X', '04x'])) for _ in range(8 - 2 * len(tail))]
    if draw.chance(2):
        start = draw.randrange(len(groups))
        end = draw.randint(start + 1, len(groups))
        return ':'.join(groups[:start]) + '::' + ':'.join(groups[end:] + tail)
    return ':'.join(groups + tail)


def host(draw, *others):
    """An address in front of a port."""
    return draw.choice([ipv4(draw), f'[{ipv6(draw)}]', *others])


def time(draw):
    unit = draw.choice(list(TIMES))
    return draw.number(1, TIMES[unit]) + unit


def size(draw):
    unit = draw.choice(list(SIZES))
    return draw.number(1, (1 << 30) // SIZES[unit]) + draw.choice([unit, unit.upper()])


def name(draw, number):
    """A name, which no other number has."""
    return ''.join(draw.choices(NAME_BYTES, k=draw.randrange(6))) + f'n{number}'


def stored(draw):
    """The words that say what is stored, each datum once."""
    data = [*PLAIN, *(f'{rate}({time(draw)})' for rate in RATES)]
    data = draw.sample(data, draw.randint(1, len(data)))
    cut = draw.randint(1, len(data))
    return [part for some in (data[:cut], data[cut:]) if some for part in ('store', ','.join(some))]


def stick_table(draw):
    kind = draw.choice([['ip'], ['ipv6'], ['integer'], ['string'], ['string', 'len', draw.number(1, 1024)]])
    parts = [['type', *kind], ['size', size(draw)]]
    parts += [['expire', time(draw)]] if draw.chance(2) else []
    parts += [['nopurge']] if draw.chance(3) else []
    parts += [stored(draw)] if draw.chance(2) else []
    draw.shuffle(parts)
    return ['stick-table', *(word for part in parts for word in part)]


def numbers(draw):
    """Values that a number is compared with."""
    words, operator = [], 'eq'
    for _ in range(draw.randint(1, 4)):
        if draw.chance(2):
            operator = draw.choice(OPERATORS)
            words.append(operator)
        value = draw.number(0, 2 ** 64 - 1)
        forms = [value, f'{value}:{draw.number(0, 2 ** 64 - 1)}', f'{value}:', f':{value}'] if operator == 'eq' else [value]
        words.append(draw.choice(forms))
    return words


def network(draw):
    return draw.choice([ipv4(draw), ipv6(draw), f'{ipv4(draw)}/{draw.number(0, 32)}', f'{ipv6(draw)}/{draw.number(0, 128)}'])


def fetch(draw, section):
    slot = draw.randrange(3)
    both = draw.choice(FETCHES)
    any_of = draw.choice(FETCHES + SLOT_FETCHES)
    forms = [f'sc_{any_of}({slot})', f'sc{slot}_{any_of}']
    forms += [f'src_{both}'] if section.owns else []
    forms += [f'src_{both}({draw.choice(section.tables)})'] if section.tables else []
    return draw.choice(forms)


def criterion(draw, section):
    slot = draw.randrange(3)
    return draw.choice([
        lambda: [draw.choice(['always_true', 'always_false', f'sc_tracked({slot})', f'sc{slot}_tracked'])],
        lambda: ['src', *(network(draw) for _ in range(draw.randint(1, 3)))],
        lambda: [draw.choice(['src_port', 'dst_port']), *numbers(draw)],
        lambda: [fetch(draw, section), *numbers(draw)],
    ])()


def term(draw, section, acls):
    if draw.chance(2):
        words = [draw.choice(['TRUE', 'FALSE', *acls])]
    else:
        words = ['{', *criterion(draw, section), '}']
    return draw.choice([words, words, ['!', *words], ['!' + words[0], *words[1:]]])


def condition(draw, section, acls):
    words = []
    for number in range(draw.randint(1, 3)):
        words += [draw.choice(['or', '||'])] if number else []
        for _ in range(draw.randint(1, 3)):
            words += term(draw, section, acls)
    return words


def action(draw, section):
    slot, of_slot = draw.randrange(3), draw.number(0, 2)
    actions = [['accept'], ['reject'], [f'sc-inc-gpc0({of_slot})'], [f'sc-inc-gpc1({of_slot})'],
               [f'sc-set-gpt0({of_slot})', draw.number(0, 2 ** 32 - 1)]]
    key = draw.choice(['src', 'src_port', 'dst_port', f'int({draw.number(0, 2 ** 32 - 1)})', 'str(a)', 'str(((caf\u00e9,;!)'])
    actions += [[f'track-sc{slot}', key]] * 3 if section.owns else []
    actions += [[f'track-sc{slot}', key, 'table', draw.choice(section.tables)]] * 2 if section.tables else []
    return draw.choice(actions)


def rule(draw, section, acls):
    tail = [draw.choice(['if', 'unless']), *condition(draw, section, acls)] if draw.chance(2) else []
    return ['tcp-request', 'connection', *action(draw, section), *tail]


def rules_of(draw, section):
    """ACLs and rules, an ACL before what uses it."""
    lines, acls = [], []
    for _ in range(draw.randrange(7)):
        if draw.chance(3):
            acls.append(name(draw, draw.randrange(3)))
            lines.append(['acl', acls[-1], *criterion(draw, section)])
        else:
            lines.append(rule(draw, section, acls))
    return lines


def others_of(draw, section, backends):
    """The lines of a section that may stand anywhere in it."""
    lines = [['mode', 'tcp'] for _ in range(draw.randrange(2))]
    lines += [draw.choice(READ_PAST).split() for _ in range(draw.randrange(3))]
    if section.owns:
        lines.append(stick_table(draw))
    if section.kind != 'frontend' and draw.chance(2):
        more = draw.choice([[], [], ['check'], ['weight', '5', 'backup']])
        lines.append(['server', name(draw, 1), f'{host(draw)}:{draw.number(1, 65535)}', *more])
    if section.kind != 'backend' and draw.chance(2):
        lines.append(['bind', f"{host(draw, '', '*')}:{draw.number(1, 65535)}"])
    if section.kind != 'backend' and backends and draw.chance(2):
        lines.append(['default_backend', draw.choice(backends)])
    return lines


def lines_of(draw, section, backends):
    """The lines of a section, as words."""
    lines = rules_of(draw, section) if section.kind != 'backend' else []
    for line in others_of(draw, section, backends):
        lines.insert(draw.randint(0, len(lines)), line)
    return [[section.kind, section.name], *lines]


def is_past(words):
    """Whether a line is read past, or words of it."""
    return words[0] in ('option', 'timeout', 'balance', 'maxconn', 'log') or words[0] == 'server' and len(words) > 3


def rendered(draw, words):
    """A line of these words, with blanks, a comment and an end as they are allowed."""
    blank = [' ', ' ', '  ', '\t', ' \t ']
    text = draw.choice(['', '    ', '\t']) + words[0] + ''.join(draw.choice(blank) + word for word in words[1:]) if words else draw.choice(['', '  '])
    text += draw.choice(['', ' ', '\t']) + '#' + draw.choice(COMMENTS) if draw.chance(5) else ''
    return text + draw.choice(['\n', '\n', '\n', '\r\n'])


def sections_of(draw):
    """The sections of a file, the first word alone of those that are read past."""
    kinds = [draw.choice(['frontend', 'backend', 'listen', 'listen', 'global', 'defaults']) for _ in range(draw.randrange(6))]
    named = [(kind, name(draw, number), draw.chance(2)) for number, kind in enumerate(kinds)]
    tables = [title for kind, title, owns in named if owns and kind not in ('global', 'defaults')]
    return [Section(kind, title, tables, owns) for kind, title, owns in named]


def draw_configuration(*seed):
    """The configuration of a seed."""
    draw = Draw(*seed)
    sections = sections_of(draw)
    backends = [section.name for section in sections if section.kind in ('backend', 'listen')]
    text, tables, rules, past = [], 0, 0, []

    def put(words):
        while draw.chance(6):
            text.append(rendered(draw, []))
        text.append(rendered(draw, words))

    for section in sections:
        if section.kind in ('global', 'defaults'):
            put([section.kind])
            past.append(len(text))
            for _ in range(draw.randrange(3)):
                put(draw.choice(SKIPPED).split())
            continue
        for words in lines_of(draw, section, backends):
            put(words)
            tables += words[0] == 'stick-table'
            rules += words[0] == 'tcp-request'
            past += [len(text)] if is_past(words) else []
    whole = ''.join(text)
    return Drawn((whole.rstrip('\r\n') if draw.chance(4) else whole).encode(), tables, rules, past)


def damage(text, *seed):
    """The same text with one byte changed."""
    draw = Draw('damage', *seed)
    place = draw.randrange(len(text))
    changed = draw.choice([byte for byte in range(256) if byte != text[place]])
    return text[:place] + bytes([changed]) + text[place + 1:]
