"""What the commands for packages and the example say of themselves and of what they lack; and the example at work."""
import os
import re

from lib.package.base import TOP, Made, content, copy_of_sources, folder, packaging, put, run, same
from lib.trials import wants


UNBUILT = r'there is no program at \S+/crates/stickd/out/stickd: \(cd crates/stickd && rt run -- --version\) builds one, .*'
# What each of the commands says on its line, and its status. A {top} is a copy of the sources; nothing is built there.
COMMON = [
    ([], 1, UNBUILT),
    (['--program', '{top}/none'], 1, r'there is no program at \S+/none'),
    (['--program', '{top}/man/stickd.1'], 1, r'\S+/stickd\.1 does not run: .*'),
    (['--program', '{top}/silent'], 1, r"\S+/silent is not stickd: --version has status 3 and says b''"),
    (['--bogus'], 2, None), (['--program'], 2, None), (['word'], 2, None)]
ERRORS = {
    'deb': [*COMMON, (['--output'], 2, None)],
    'install': [*COMMON, (['--remove', '--program', '{top}/silent'], 2, None),
                *[(['--prefix', prefix], 1, '--prefix .*: a path from the root is wanted, .*')
                  for prefix in ('usr', '/a b', '/a/../b', '/a%i', '')]],
    'completions.py': [*COMMON, (['--program', '{top}/bare'], 1, 'the help of stickd has no options'),
                       (['--program', '{top}/strange'], 1, "this line of the help is none of options: '  --with'")]}
# Programs that are no stickd, or of which the help can't be read.
PROGRAMS = {
    'silent': 'exit 3',
    'bare': '[ "$1" = --version ] && echo stickd 0.2.0 || printf "Commands:\\n  help  Help\\n"',
    'strange': '[ "$1" = --version ] && echo stickd 0.2.0 || printf "Options:\\n  --with\\n"'}


def errors_are_told():
    """What can't be packaged is said on one line, with status 1; bad options have status 2. Nothing is written then."""
    top, output = copy_of_sources(), folder()
    for name, does in PROGRAMS.items():
        put(os.path.join(top, name), f'#!/bin/sh\n{does}\n')
        os.chmod(os.path.join(top, name), 0o755)
    for command, rows in ERRORS.items():
        more = {'install': ['--destdir', output], 'deb': ['--output', output]}.get(command, [])
        for words, status, wanted in rows:
            said, told = packaging(command, *more, *[word.format(top=top) for word in words], top=top, status=status)
            assert wanted is None or re.fullmatch(f'packaging/{command}: {wanted}\n', told), (command, words, told)
            same('written', (said, os.listdir(output)), ('', []))


def a_package_that_can_not_be_made_is_told():
    """A time that is no number, a folder that can't be made, and a changelog of another version."""
    wants('dpkg-deb')
    top, output = copy_of_sources(), folder()

    def told(*words, **variables):
        return packaging('deb', '--program', Made.program, *words, top=top, status=1, env={**os.environ, **variables})[1]

    same('time', told('--output', output, SOURCE_DATE_EPOCH='now'),
         "packaging/deb: SOURCE_DATE_EPOCH is 'now', and has to be a number of seconds\n")
    assert re.fullmatch(r'packaging/deb: .*/proc/none.*\n', told('--output', '/proc/none'))
    changelog = os.path.join(top, 'packaging', 'debian', 'changelog')
    put(changelog, content(changelog).decode().replace(f'({Made.version})', '(9.9.9)', 1))
    same('version', told('--output', output),
         f'packaging/deb: packaging/debian/changelog begins with 9.9.9, and the program is {Made.version}: add an entry\n')
    same('packages', os.listdir(output), [])


def help_is_printed():
    for words in (['packaging/deb'], ['packaging/install'], ['packaging/completions.py'], ['examples/run-limit.sh']):
        said = run(os.path.join(TOP, *words), '--help')[0]
        assert words[0] in said and '--program PATH' in said, said


def the_example_shows_the_proxy():
    """examples/run-limit.sh prints who gets in, and leaves nothing behind."""
    room = folder()
    said = run(os.path.join(TOP, 'examples', 'run-limit.sh'), '--program', Made.program, env={**os.environ, 'TMPDIR': room})[0]
    wanted = ['the rule: reject if { sc0_conn_cur gt 2 }', 'client 1: welcome', 'client 2: welcome', 'client 3: turned away',
              '# table: www, type: ip, size:102400, used:1',
              r'0x0: key=127\.0\.0\.1 use=2 exp=59\d{4} conn_cnt=3 conn_cur=2',
              'client 1 leaves', 'client 4: welcome', r'settled www: \d+ calls, 0 references']
    lines = said.splitlines()
    same('lines', len(lines), len(wanted))
    for line, pattern in zip(lines, wanted):
        assert line == pattern or re.fullmatch(pattern, line), f'{line!r}, and wanted is {pattern!r}'
    same('left', os.listdir(room), [])
    here = [entry for entry in os.listdir('/proc') if entry.isdecimal() and room in command_of(entry)]
    same('processes that are left', here, [])


def command_of(process):
    """The command line of a process, if it is still there."""
    try:
        return content('/proc', process, 'cmdline').decode(errors='replace')
    except OSError:
        return ''


def the_example_says_what_it_lacks():
    """Bad options, a program that is none, and one that can't serve."""
    script = os.path.join(TOP, 'examples', 'run-limit.sh')
    for words, status in [(['--bogus'], 2), (['--program'], 2), (['--program', '/none'], 1), (['--program', '/bin/false'], 1)]:
        said, complaint = run(script, *words, status=status)
        same('output', said, '')
        assert complaint.startswith('run-limit.sh: '), complaint


TRIALS = [errors_are_told, a_package_that_can_not_be_made_is_told, help_is_printed, the_example_shows_the_proxy, the_example_says_what_it_lacks]
