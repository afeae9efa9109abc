"""The examples of the manual page man/stickd.1, as blocks of the rows of tests/program (*.runs).

Each display of the page has a comment before it, which says what it is:

.\\" file NAME   a file of this name, which lies beside the sessions behind it
.\\" session     what is typed, behind `$ `, and what is printed. `stickd WORDS` has its input behind `<`, the name of a file, or
                behind `<< END` in the lines up to END, or before `|` in `echo 'LINE'`. Lines that begin with `stickd: ` are
                standard error, and so are those behind them that begin with blanks; all others are standard output. Behind
                `echo $?` stands the status; where it isn't shown it is 1 if standard error alone was written, and else 0.
.\\" fault       a configuration, of which `check` names the last line and the fault that its item is named after
.\\" by hand     nothing that is run"""
import re

from lib.places import PAGE

MARK = re.compile(r'\.\\" (?:(file) (\S+)|(session|fault|by hand))$')
ITEM = re.compile(r'\.It Sy (.*)$')
TYPED = re.compile(r"(?:echo '(?P<line>.*)' \| )?stickd (?P<words>.*?)(?: < (?P<file>\S+)| << (?P<end>\S+))?$")
# What stands for a character in a display.
ESCAPES = {r'\e': '\\', r'\-': '-', r'\(aq': "'", r'\&': ''}


def plain(text):
    """A text of the page as it is read."""
    return re.sub(r'\\\(..|\\.', lambda found: ESCAPES[found[0]], text)


def displays(lines):
    """Each display: what its comment says it is, the name of its file, the item that it stands in, and its lines."""
    mark, item, shown = None, None, None
    for number, line in enumerate(lines, 1):
        if shown is not None and line == '.Ed':
            yield (*mark, item, shown)
            mark, shown = None, None
        elif shown is not None:
            shown.append(plain(line))
        elif line.startswith(('.Bd', '.Dl', '.D1')):
            if mark is None or not line.startswith('.Bd'):
                raise ValueError('%s: line %d: no comment says what this display is' % (PAGE, number))
            shown = []
        else:
            found, named = MARK.match(line), ITEM.match(line)
            mark = (found[1] or found[3], found[2]) if found else None
            item = plain(named[1]) if named else item


def escaped(text):
    """A text as tables write it, where it stands for itself."""
    if re.search(r'\{.*?(\*\d+|\.\.\d+)\}', text):
        raise ValueError('%s: %r would be more lines than one' % (PAGE, text))
    return text.replace('\\', '\\\\')


def file_lines(name, lines):
    """The lines of a block that make a file."""
    return ['file ' + name] + ['    ' + escaped(line) for line in lines]


def input_of(typed, rest, files):
    """The lines of a program's input; those that stand behind `<< END` are taken."""
    if typed['line'] is not None:
        return [typed['line']]
    if typed['file'] is not None:
        return files[typed['file']]
    if typed['end'] is None:
        return []
    end = rest.index(typed['end'])
    lines, rest[:end + 1] = rest[:end], []
    return lines


def printed(rest):
    """The lines of a block that say what a command prints, and its status; they are taken."""
    wanted, status = [], None
    while rest and not rest[0].startswith('$ '):
        line = rest.pop(0)
        goes_on = line.startswith(' ') and wanted and wanted[-1].startswith('2> ')
        wanted.append(('2> ' if line.startswith('stickd: ') or goes_on else '1> ') + escaped(line))
    if rest and rest[0] == '$ echo $?':
        status = int(rest[1])
        del rest[:2]
    elif wanted and all(line.startswith('2> ') for line in wanted):
        status = 1
    return wanted + ['status %d' % (status or 0)]


def session_blocks(lines, files):
    """The commands of a session, each with the lines of its block."""
    rest = list(lines)
    while rest:
        typed = TYPED.fullmatch(rest.pop(0)[2:])
        if typed is None:
            raise ValueError('%s: no command in %r' % (PAGE, lines))
        named = [name for name in typed['words'].split() if name in files]
        block = [line for name in named for line in file_lines(name, files[name])]
        block.append('run ' + typed['words'])
        block += ['< ' + escaped(line) for line in input_of(typed, rest, files)]
        yield 'stickd ' + typed['words'], block + printed(rest)


def fault_block(name, lines):
    """A configuration whose last line has a fault."""
    return file_lines('fault.cfg', lines) + ['run check fault.cfg', '2> stickd: line %d: %s' % (len(lines), name), 'status 1']


def blocks_of_page(path=PAGE):
    """The examples of a page, in order: a name, and the lines of a block of *.runs."""
    with open(path, encoding='utf-8') as page:
        lines = page.read().splitlines()
    files, count = {}, 0
    for kind, name, item, shown in displays(lines):
        count += 1
        if kind == 'file':
            files[name] = shown
        elif kind == 'fault':
            yield 'manual %d: %s' % (count, item), fault_block(item, shown)
        elif kind == 'session':
            for words, block in session_blocks(shown, files):
                yield 'manual %d: %s' % (count, words), block
