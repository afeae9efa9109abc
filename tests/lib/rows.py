"""The rows that tests/program runs: those of tests/rows, and the examples of the manual page.

A row is a set of files, or stands in a table with others of its kind.

NAME.args    the words behind `stickd`, one a line; {conf} is its configuration, {examples} the folder examples/
NAME.conf, NAME.stdin, NAME.stdout, NAME.stderr    its configuration and input, and what is wanted (none: nothing)
NAME.status  the status that is wanted (none: 0)

In a table `== NAME` begins a block, `-- ` a comment; in what is read, \\n, \\r, \\t, \\\\ and \\xNN stand for bytes. Lines that
begin with four blanks are a configuration, read without those.

*.lines      LINE => WANTED: the block's configuration and this line behind it, as `stickd check` reads them (where the
             configuration ends in `...`, the line goes on there). WANTED is `valid: ..`, or the fault of this line; and
             behind `; ` the lines that are read past, in order. Behind a fault and `; HAProxy's` the file is told as one of HAProxy's.
*.prefixes   |PIECE| WANTED: the pieces joined are a configuration for `check`, or behind `run replay` a script. However much
             of a piece is there, a byte at least, WANTED is answered, a fault with its line; so is an empty piece. Where a
             script's answer ends with `bad line`, its last line is named on standard error.
*.damaged    any one byte of the block's configuration, replaced by 0xff, is `not UTF-8`, with its line.
*.sessions   `> LINE` is a line of a script, and behind it stands what it is answered; `run` has the words behind `stickd`;
             `memory N` lets the program have N kB of address space and no more. The first ten lines that are answered
             `bad line` are named on standard error, and of more than ten it is said how many.
             {A..B} in a line of either counts from A to B, a line each; {X*N} is X, N times. So it is in *.runs.
*.conditions CONDITION => holds or fails, of a connection `from ADDRESS PORT`: it is rejected `if` the condition holds, and
             `unless` it holds accepted.
*.runs       `file NAME` with its lines, `folder NAME`, `unreadable NAME`; `run WORDS`; `< ` input, `1> ` and `2> ` what is
             wanted on standard output and standard error, or by {examples} a file of the examples; `input closed`, `output
             closed`, `output full`, `output unread`: what can't be read or written; `status N`.
*.headers    headers of the PROXY protocol, which tests/operations sends to a program at work; none of these rows."""
import collections
import os
import re

from lib.manual_page import blocks_of_page
from lib.places import EXAMPLES, ROWS

CONF = 'row.cfg'
# What is done to a file of a row: it is a folder, or nobody may read it.
FOLDER, UNREADABLE = 'folder', 'unreadable'

Wanted = collections.namedtuple('Wanted', 'stdout stderr status')
# The words behind the program's name, its input (None: it is closed), the files that lie beside it by name, what its standard
# output is (None: it is read), what is wanted, and how many kB of address space it may have (None: any number).
Row = collections.namedtuple('Row', 'name words stdin files output wanted memory', defaults=[None])
Block = collections.namedtuple('Block', 'name conf lines')


def plain_row(name, words, wanted, stdin=b'', conf=None):
    """A row with a configuration at most, whose standard output is read."""
    files = {} if conf is None else {CONF: conf}
    words = [word.replace('{conf}', CONF).replace('{examples}', EXAMPLES) for word in words]
    return Row(name, words, stdin, files, None, wanted)


def read_file(path):
    """The bytes of a file, or none where there is no such file."""
    if not os.path.exists(path):
        return None
    with open(path, 'rb') as file:
        return file.read()


def bytes_of(text):
    """What a text of a table stands for."""
    def byte_of(match):
        if match[1] is None:
            raise ValueError('a backslash stands for nothing in %r' % text)
        return {b'n': b'\n', b'r': b'\r', b't': b'\t', b'\\': b'\\'}.get(match[1]) or bytes([int(match[1][1:], 16)])
    return re.sub(rb'\\([nrt\\]|x[0-9a-f]{2})?', byte_of, text.encode())


def blocks_of(path):
    """The blocks of a table: name, configuration (None without one), and the other lines."""
    blocks = []
    with open(path, encoding='utf-8') as table:
        for line in table.read().splitlines():
            if line.startswith('== '):
                blocks.append(Block(line[3:], [], []))
            elif blocks and line.startswith('    ') and not blocks[-1].lines:
                blocks[-1].conf.append(line[4:])
            elif blocks and not line.startswith('-- '):
                blocks[-1].lines.append(line)
            elif line and not line.startswith('-- '):
                raise ValueError('%s: %r stands before the first block' % (path, line))
    return blocks


def conf_of(block):
    """The configuration of a block, as bytes; the last line goes on where it ends in `...`."""
    text = ''.join(line + '\n' for line in block.conf)
    return bytes_of(text[:-4] if text.endswith('...\n') else text)


def cut(line, at):
    """The two sides of a row of a table."""
    before, found, after = line.rpartition(at)
    if not found:
        raise ValueError('no %r in %r' % (at, line))
    return before.strip(), after.strip()


HAPROXYS = b"stickd: it looks like a file of HAProxy's: 'stickd adopt' writes what stickd runs in its place\n"


def checked(answer, number=None):
    """What `check` is to write for an answer of a table; a fault without a line is of the line with this number."""
    said, *passed = answer.split('; ')
    stderr = ''.join('stickd: %s\n' % line for line in passed)
    if said.startswith('valid: '):
        return Wanted((said + '\n').encode(), stderr.encode(), 0)
    place = '' if said.startswith('line ') else 'line %d: ' % number
    hint = HAPROXYS if passed == ["HAProxy's"] else b''
    return Wanted(b'', ('stickd: %s%s\n' % (place, said)).encode() + hint, 1)


def bad_lines_said(numbers):
    """What a replay says of the bad lines with these numbers."""
    said = ['script line %d: bad line' % number for number in numbers[:10]]
    said += ['%d bad lines in all' % len(numbers)] if len(numbers) > 10 else []
    return ''.join('stickd: %s\n' % line for line in said).encode()


def rows_of_files(name):
    """The row whose files begin with a name."""
    path = os.path.join(ROWS, name)
    words = read_file(path + '.args').decode().splitlines()
    stdin, stdout, stderr = (read_file(path + end) or b'' for end in ('.stdin', '.stdout', '.stderr'))
    wanted = Wanted(stdout, stderr, int(read_file(path + '.status') or 0))
    return [plain_row(name, words, wanted, stdin, read_file(path + '.conf'))]


def rows_of_lines(block):
    """Lines of a configuration, each with its fault or what is valid."""
    before = conf_of(block)
    for line in filter(None, block.lines):
        text, answer = cut(line, ' => ') if ' => ' in line else cut(line, '=> ')
        wanted = checked(answer, before.count(b'\n') + 1)
        yield plain_row('%s: %s' % (block.name, text), ['check', '{conf}'], wanted, conf=before + bytes_of(text))


def rows_of_prefixes(block):
    """All prefixes of a text."""
    is_script = block.lines[:1] == ['run replay']
    text = b''
    for line in filter(None, block.lines[is_script:]):
        piece, answer = re.fullmatch(r'\|(.*)\| ?(.*)', line).groups()
        piece = bytes_of(piece)
        for length in range(min(1, len(piece)), len(piece) + 1):
            prefix = text + piece[:length]
            name = '%s: %r' % (block.name, prefix[-40:])
            if is_script:
                last = [prefix.rstrip(b'\n').count(b'\n') + 1] if answer.endswith(r'bad line\n') else []
                wanted = Wanted(bytes_of(answer), bad_lines_said(last), 0)
                yield plain_row(name, ['replay', '{conf}'], wanted, prefix, conf_of(block))
            else:
                yield plain_row(name, ['check', '{conf}'], checked(answer), conf=prefix)
        text += piece


def rows_of_damaged(block):
    """A configuration with a byte that is no text, at each place."""
    text = conf_of(block)
    for place in range(len(text)):
        wanted = checked('C11 not UTF-8', text[:place].count(b'\n') + 1)
        conf = text[:place] + b'\xff' + text[place + 1:]
        yield plain_row('%s: byte %d' % (block.name, place), ['check', '{conf}'], wanted, conf=conf)


def expanded(line):
    """The lines that a line of a session stands for, as bytes."""
    line = re.sub(r'\{(.*?)\*(\d+)\}', lambda match: match[1] * int(match[2]), line)
    counts = re.search(r'\{(\d+)\.\.(\d+)\}', line)
    if counts is None:
        return bytes_of(line) + b'\n'
    before, after = bytes_of(line[:counts.start()]), bytes_of(line[counts.end():]) + b'\n'
    return b''.join(before + b'%d' % number + after for number in range(int(counts[1]), int(counts[2]) + 1))


def rows_of_sessions(block):
    """A script, with what each line is answered."""
    words = ['replay', '{conf}'] if block.conf else ['replay']
    stdin, stdout, memory, bad = b'', b'', None, []
    for line in block.lines:
        if line.startswith('run '):
            words = line.split()[1:]
        elif line.startswith('memory '):
            memory = int(line.split()[1])
        elif line.startswith('>'):
            stdin += expanded(line[2:])
        else:
            stdout += expanded(line)
            bad += [stdin.count(b'\n')] if line == 'bad line' else []
    row = plain_row(block.name, words, Wanted(stdout, bad_lines_said(bad), 0), stdin, conf_of(block) if block.conf else None)
    yield row._replace(memory=memory)


def rows_of_conditions(block):
    """Conditions, each with `if` and with `unless`."""
    word, address, port = block.lines[0].split()
    if word != 'from':
        raise ValueError('%s: no connection' % block.name)
    for line in filter(None, block.lines[1:]):
        condition, answer = cut(line, ' => ')
        for negation, is_rejected in (('if', answer == 'holds'), ('unless', answer == 'fails')):
            rule = 'tcp-request connection reject %s %s' % (negation, condition)
            verdict = b'open 1 reject\n' if is_rejected else b'open 1 accept\n'
            if answer not in ('holds', 'fails'):
                raise ValueError('%r neither holds nor fails' % line)
            yield plain_row('%s: %s' % (block.name, rule), ['replay', '{conf}'], Wanted(verdict, b'', 0),
                            ('0 open 1 %s %s\n' % (address, port)).encode(), conf_of(block) + rule.encode() + b'\n')


def stream_text(line):
    """What a line of input or of wanted output stands for: itself, or a file of the examples."""
    if line.startswith('{examples}'):
        return read_file(line.replace('{examples}', EXAMPLES))
    return expanded(line)


def rows_of_runs(block):
    """One run of the program, with the files beside it."""
    files, words, output, status, last = {}, None, None, 0, None
    streams = {'<': b'', '1>': b'', '2>': b''}
    for line in block.lines:
        word, _, rest = line.partition(' ')
        if line.startswith('    '):
            files[last] += bytes_of(line[4:]) + b'\n'
        elif word in streams:
            streams[word] += stream_text(rest)
        elif word == 'file':
            files[rest], last = b'', rest
        elif word in (FOLDER, UNREADABLE):
            files[rest] = word
        elif word == 'run':
            words = [bytes_of(part.replace('{examples}', EXAMPLES)) for part in rest.split()]
        elif line == 'input closed':
            streams['<'] = None
        elif word == 'output':
            output = rest
        elif word == 'status':
            status = int(rest)
        elif line:
            raise ValueError('%s: %r' % (block.name, line))
    yield Row(block.name, words, streams['<'], files, output, Wanted(streams['1>'], streams['2>'], status))


KINDS = {'.lines': rows_of_lines, '.prefixes': rows_of_prefixes, '.damaged': rows_of_damaged,
         '.sessions': rows_of_sessions, '.conditions': rows_of_conditions, '.runs': rows_of_runs}


def all_rows(prefixes=('',)):
    """The rows of tests/rows whose names have one of these prefixes, in the order of their files' names, and the examples of the manual
    page. The name of a row begins with that of its block, so that others needn't be made."""
    return (row for row in rows_of_blocks(prefixes) if row.name.startswith(prefixes))


def rows_of_blocks(prefixes):
    """The rows of all blocks that may have one whose name has one of these prefixes."""
    def may_have(name):
        return any(name.startswith(prefix) or prefix.startswith(name) for prefix in prefixes)
    for file in sorted(os.listdir(ROWS)):
        name, end = os.path.splitext(file)
        if end == '.args':
            yield from rows_of_files(name) if may_have(name) else []
        elif end in KINDS:
            for block in filter(lambda block: may_have(block.name), blocks_of(os.path.join(ROWS, file))):
                yield from KINDS[end](block)
        elif end not in ('.conf', '.stdin', '.stdout', '.stderr', '.status', '.headers'):
            raise ValueError('%s is no file of a row' % file)
    for name, lines in blocks_of_page():
        if may_have(name):
            yield from rows_of_runs(Block(name, [], lines))
