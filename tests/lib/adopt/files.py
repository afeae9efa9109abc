"""What becomes of each kind of line, of whole files, and of files that are drawn."""
import collections
import concurrent.futures
import glob
import os
import tempfile

from lib.adopt.drawn import drawn
from lib.adopt.parts import CASES, CHANGED, SAME, write_file

# A section that `peers` names.
PEERS = ['peers mates', '    peer here 127.0.0.1:10000']
# A table of another section.
SIX = ['backend six', '    stick-table type ipv6 size 1k store conn_cur']
SOURCES = b'# of the office\n192.0.2.0/24\n\n  198.51.100.7\n'


def read_rows():
    """Each row of lines.txt: where the line stands, the line, what stands for it, and what is said of it."""
    place, row = None, {}
    with open(os.path.join(CASES, 'lines.txt'), encoding='ascii') as rows:
        for line in rows:
            word, _, rest = line.rstrip('\n').partition(' ')
            if word == 'place':
                place = rest
            elif word in ('in', 'out', 'report'):
                row[word] = rest.strip()
            if len(row) == 3:
                yield place, row['in'], row['out'], row['report']
                row = {}


def file_with(place, line):
    """The lines of a small configuration with this line in it, and the number of the line, from 1."""
    first = line.split()[0]
    parts = {
        'global': ['global'],
        'defaults': ['defaults', '    mode tcp'],
        'frontend': ['frontend fe'],
        'backend': ['backend be'],
    }
    if not (place == 'frontend' and first == 'bind'):
        parts['frontend'].append('    bind 127.0.0.1:7001')
    parts['frontend'] += [
        '    stick-table type ip size 1k expire 1m store conn_cur,gpc0,http_req_rate(10s)',
        '    tcp-request connection track-sc0 src',
    ]
    place = 'frontend' if place == 'behind a listener' else place
    parts[place].append('    ' + line)
    number_in_part = len(parts[place])
    parts['frontend'].append('    default_backend be')
    if not (place == 'backend' and first == 'server'):
        parts['backend'].append('    server s0 127.0.0.1:7002')
    lines, number = list(PEERS), None
    for name, part in parts.items():
        if name == place:
            number = len(lines) + number_in_part
        lines += part
    return lines + SIX, number


def row_fault(adopter, folder, row):
    """What is wrong with what becomes of a row, if anything."""
    place, line, out, report = row
    lines, number = file_with(place, line)
    done = adopter.adopt(write_file(folder, 'row.cfg', '\n'.join(lines + ['']).encode()), '--anyway', '--first-server')
    prefix = f'stickd: line {number}: '
    found = [it[len(prefix):] for it in done.said if it.startswith(prefix)]
    written = [it.strip() for it in done.text.decode().splitlines()]
    stands = out in written if out != '--' else any(it.startswith('#- ') and line in it for it in written)
    if found == [report] and stands:
        return None
    return f'{place}: {line}: said {found}, wanted {report!r}; {"it stands" if stands else f"not written: {out}"}'


def lines(adopter, _):
    """each row of lines.txt: a line, what stands for it, and what is said of it"""
    rows = list(read_rows())
    with tempfile.TemporaryDirectory() as folder:
        write_file(folder, 'sources.list', SOURCES)
        faults = [row_fault(adopter, folder, row) for row in rows]
    return [fault for fault in faults if fault], f'{len(rows)} rows'


def cases():
    """The files beside lines.txt."""
    return sorted(glob.glob(os.path.join(CASES, '*.cfg')))


def files(adopter, given):
    """each file of tests/adopt_cases, and each that is named"""
    paths, faults, counts = [*cases(), *given.files], [], collections.Counter()
    for path in paths:
        fault, status = adopter.fault_of(path, '--first-server')
        counts[status] += 1
        faults += [f'{os.path.basename(path)}: {fault}'] if fault else []
    return faults, f'{len(paths)} files, {counts[SAME]} with status 0'


def drawn_fault(adopter, folder, seed, number):
    """What is wrong with a file that is drawn, if anything; and the status."""
    text, options = drawn(seed, number)
    path = write_file(folder, f'{number}.cfg', text)
    fault, status = adopter.fault_of(path, *options)
    os.remove(path)
    return fault and f'file {number} of seed {seed}, {options}: {fault}\n{text.decode("utf-8", "replace")}', status


def drawn_files(adopter, given):
    """files that are drawn"""
    with tempfile.TemporaryDirectory() as folder, concurrent.futures.ThreadPoolExecutor(os.cpu_count()) as pool:
        ran = list(pool.map(lambda number: drawn_fault(adopter, folder, given.seed, number), range(given.count)))
    counts = collections.Counter(status for _, status in ran)
    faults = [fault for fault, _ in ran if fault]
    if not counts[SAME] or not counts[CHANGED]:
        faults.append(f'no file of each kind: {dict(counts)}')
    return faults, f'{given.count:,} files, {counts[SAME]:,} with status 0'
