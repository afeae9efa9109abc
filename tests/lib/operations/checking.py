"""Trials of a start that is only tried, `run --check`: it finds what a start would refuse, and binds nothing."""
import os
import subprocess
import tempfile

from lib.places import TOP, stickd
from lib.proxy import PATIENCE, TABLE, TRACK, Proxy, Server, free_port, greets

EXAMPLES = os.path.join(TOP, 'examples')
SERVER = 'server one 127.0.0.1:1'
# Configurations, the options after them, and what a start and a check of it say in one line; the proxy's own faults by the mark of an
# error.
REFUSED = [
    (['listen www', SERVER], [], '<3>stickd: the configuration has no bind'),
    (['listen www', 'bind 127.0.0.1:{port}'], [], '<3>stickd: the configuration has no server'),
    (['listen www', 'bind 127.0.0.1:{port}', 'mode http', SERVER], [], 'stickd: line 3: C10 mode http'),
    (['listen www', 'bind 127.0.0.1:{port}', 'stick-table type ip size 3', SERVER], ['--shards', '16'],
     'stickd: table www has fewer places than shards: 3, and there are 16 shards. Give --shards 3 or fewer, or its stick-table a size of '
     '16 or more'),
    (['listen www', 'bind 127.0.0.1:{port}', SERVER], ['--socket-group', 'nobody-has-this'], "<3>stickd: there is no group 'nobody-has-this'"),
    (['listen www', 'bind 127.0.0.1:{port}', SERVER], ['--stats-socket', '{room}/stats,group=nobody-has-this'],
     "<3>stickd: there is no group 'nobody-has-this'"),
]


def said(conf, room, *words):
    """The status of a run, what it writes, and its lines of standard error but for warnings."""
    ran = subprocess.run([stickd(), 'run', conf, '--socket', f'{room}/commands', '--threads', '2', *words], stdin=subprocess.DEVNULL,
                         capture_output=True, text=True, timeout=PATIENCE, check=False)
    return ran.returncode, ran.stdout, [line for line in ran.stderr.splitlines() if not line.startswith(('stickd: warning: ', '<4>stickd: warning: '))], ran.stderr


def configuration(room, lines, port):
    conf = os.path.join(room, 'proxy.cfg')
    with open(conf, 'w', encoding='utf-8') as file:
        file.write('\n    '.join(lines).format(port=port) + '\n')
    return conf


def what_a_start_refuses_is_found():
    """A check has the status of the start, and says the same."""
    with tempfile.TemporaryDirectory(prefix='stickd-') as room:
        for lines, words, line in REFUSED:
            conf = configuration(room, lines, free_port())
            words = [word.format(room=room) for word in words]
            for check in (['--check'], []):
                status, written, lines_said, _ = said(conf, room, *check, *words)
                assert (status, written, lines_said) == (1, '', [line]), (lines, check, lines_said)
        conf = configuration(room, ['listen www', 'bind 127.0.0.1:{port}', TABLE, SERVER], free_port())
        with open(f'{room}/saved', 'w', encoding='utf-8') as file:
            file.write('1000 cmd set table none key 10.0.0.1\n')
        found, wanted = said(conf, room, '--check', '--load', f'{room}/saved'), said(conf, room, '--load', f'{room}/saved')
        assert found[0] == 1 and found[:3] == wanted[:3], (found, wanted)


def a_check_binds_nothing():
    """A check of what runs passes beside the program, which keeps its sockets, and nothing is made."""
    with Server(greets) as server, Proxy(server.port, [TABLE, TRACK]) as proxy:
        before = sorted(os.listdir(proxy.room.name))
        ran = subprocess.run([stickd(), *proxy.words, '--check'], stdin=subprocess.DEVNULL, capture_output=True, text=True,
                             timeout=PATIENCE, check=False)
        assert ran.returncode == 0 and ran.stdout == '', ran
        assert sorted(os.listdir(proxy.room.name)) == before
        assert proxy.command('show table\n').startswith('# table: www')


def a_check_warns_as_a_start_does():
    """A check says the warnings of a start, also of a further bind."""
    with tempfile.TemporaryDirectory(prefix='stickd-') as room:
        conf = configuration(room, ['listen www', 'bind 127.0.0.1:{port}', TABLE, TRACK, SERVER], free_port())
        for words, is_warned in (([], False), (['--bind', f'[::]:{free_port()}'], True)):
            status, _, lines, text = said(conf, room, '--check', *words)
            assert status == 0 and lines == [], (words, text)
            assert ('tracks no client of IPv6' in text) == is_warned and 'Without --timeout-client and --timeout-server' in text, (words, text)


def a_check_warns_where_everybody_is_believed():
    """Where --accept-proxy has all addresses of a family, and others than the machine's own programs can connect: by the file's bind, or
    by a further one."""
    warning = 'stickd: warning: --accept-proxy believes everybody'
    open_bind = ['--bind', f'0.0.0.0:{free_port()}']
    rows = [([], False), (['--accept-proxy', '0.0.0.0/0,::/0'], False), (['--accept-proxy', '0.0.0.0/0', *open_bind], True),
            (['--accept-proxy', '10.0.0.1,::/0', *open_bind], True), (['--accept-proxy', '0.0.0.0/1,::1', *open_bind], False),
            (['--accept-proxy', '::/0', '--bind', f'[::ffff:127.0.0.1]:{free_port()}', '--bind', f'[::1]:{free_port()}'], False)]
    with tempfile.TemporaryDirectory(prefix='stickd-') as room:
        conf = configuration(room, ['listen www', 'bind 127.0.0.1:{port}', TABLE, TRACK, SERVER], free_port())
        for words, is_warned in rows:
            status, _, lines, text = said(conf, room, '--check', *words)
            assert status == 0 and lines == [] and (warning in text) == is_warned, (words, text)


def each_example_starts_under_the_unit():
    """Each configuration of examples/ passes the check that the shipped unit makes before its start."""
    with open(os.path.join(EXAMPLES, 'stickd.service'), encoding='utf-8') as file:
        unit = file.read().replace('\\\n', ' ')
    line = next(line for line in unit.splitlines() if line.startswith('ExecStartPre=') and '--check' in line)
    with tempfile.TemporaryDirectory(prefix='stickd-') as room:
        with open(f'{room}/saved', 'w', encoding='utf-8'):
            pass
        for name in sorted(name for name in os.listdir(EXAMPLES) if name.endswith('.cfg')):
            words = [word.replace('/etc/stickd/stickd.cfg', os.path.join(EXAMPLES, name)).replace('/run/stickd', room)
                     .replace('/var/lib/stickd/tables.saved', f'{room}/saved') for word in line.split()[1:]]
            ran = subprocess.run([stickd(), *words], stdin=subprocess.DEVNULL, capture_output=True, text=True, timeout=PATIENCE, check=False)
            assert ran.returncode == 0, (name, ran)


TRIALS = [what_a_start_refuses_is_found, a_check_binds_nothing, a_check_warns_as_a_start_does, a_check_warns_where_everybody_is_believed,
          each_example_starts_under_the_unit]
