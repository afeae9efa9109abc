"""Configurations from the grammar, one in two with a byte changed, as `stickd check` answers them."""
import concurrent.futures
import functools
import os
import re
import shutil
import tempfile

from lib.campaigns.grammar import damage, draw_configuration
from lib.campaigns.parts import Ran, Report, run, write_file
from lib.places import stickd

# The seconds that a file may take.
SHARE = 10
# How many files a process checks before it reports.
PORTION = 250
VALID = re.compile(rb'valid: \d+ tables, \d+ rules\n')
PAST = re.compile(rb'(stickd: line [1-9]\d*: read past\n)*')
# The faults that a file of HAProxy's has, and the beginnings of sections that only such a file has: then the file is told as one.
FOREIGN = (b'C1 ', b'C7 ', b'C8 ', b'C9 ', b'C10 ')
SECTION = re.compile(rb'^[ \t]*(?:global|defaults)(?:[ \t#]|\r?$)', re.MULTILINE)
HAPROXYS = b"stickd: it looks like a file of HAProxy's: 'stickd adopt' writes what stickd runs in its place\n"
FAULT = re.compile(rb'stickd: line ([1-9]\d*): (C1 unknown keyword|C2 bad number or time|C3 bad size|C4 unknown type or data|'
                   rb'C5 unknown table or backend|C6 second table or name|C7 bad condition|C8 unknown ACL|'
                   rb'C9 more than one server|C10 mode http|C11 not UTF-8)\n')


def is_answered(ran, text):
    """Whether a damaged file is called valid, with the lines that are read past, or has one fault, of a line that is there."""
    if ran.status == 0:
        return bool(VALID.fullmatch(ran.stdout) and PAST.fullmatch(ran.stderr))
    said = ran.stderr.removesuffix(HAPROXYS)
    fault = FAULT.fullmatch(said)
    is_foreign = fault is not None and fault[2].startswith(FOREIGN) and SECTION.search(text) is not None
    lines = text.count(b'\n') + (not text.endswith(b'\n'))
    return ran.status == 1 and ran.stdout == b'' and fault is not None and int(fault[1]) <= lines and (said != ran.stderr) == is_foreign


def not_utf8(text):
    """What is said of a file with a byte that is no text; None where all is text."""
    try:
        text.decode()
    except UnicodeDecodeError as fault:
        return b'stickd: line %d: C11 not UTF-8\n' % (text[:fault.start].count(b'\n') + 1)
    return None


def is_right(ran, drawn, damaged):
    """Whether a file is answered as it has to be: a valid one exactly, and a damaged one in one of the forms that there are; with
    a byte that is no text exactly, as all before it is valid."""
    if damaged is None:
        said = ''.join(f'stickd: line {line}: read past\n' for line in drawn.past)
        return ran[:3] == Ran(0, b'valid: %d tables, %d rules\n' % (drawn.tables, drawn.rules), said.encode(), 0)[:3]
    wanted = not_utf8(damaged)
    return is_answered(ran, damaged) and (wanted is None or ran.stderr == wanted)


def check_portion(program, seed, numbers):
    """Checks the files of these numbers. What was wrong, and how long the slowest took and which it was."""
    report, slowest = Report(), (0, None)
    with tempfile.TemporaryDirectory() as room:
        for number in numbers:
            drawn = draw_configuration(seed, number)
            damaged = damage(drawn.text, seed, number) if number % 2 and drawn.text else None
            text = drawn.text if damaged is None else damaged
            ran = run([program, 'check', write_file(room, 'drawn.cfg', text)], patience=SHARE)
            report.check(is_right(ran, drawn, damaged), f'number {number} of seed {seed} ({drawn[1:]}): {text!r}: {ran}')
            slowest = max(slowest, (ran.seconds, number))
    return report, slowest


def configurations(given):
    """So many files are checked, several at once."""
    report, slowest = Report(), (0, None)
    portions = [range(first, min(first + PORTION, given.count)) for first in range(0, given.count, PORTION)]
    with tempfile.TemporaryDirectory() as room, concurrent.futures.ProcessPoolExecutor(os.cpu_count()) as pool:
        program = shutil.copy(stickd(), room)
        for part, its_slowest in pool.map(functools.partial(check_portion, program, given.seed), portions):
            report.add(part)
            slowest = max(slowest, its_slowest)
    report.tell('the slowest took %.0f ms, number %s' % (slowest[0] * 1000, slowest[1]))
    return report
