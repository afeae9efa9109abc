"""Devices that fail behind every byte: what is written then, and what is said of it."""
import fcntl
import os
import pty
import resource
import subprocess
import tempfile
import tty

from lib.campaigns.parts import PATIENCE, Draw, Report, run
from lib.places import stickd

# Lines of every kind, and what each is answered on the built-in table.
SESSION = [
    (b'0 cmd set table t key 10.0.0.1 data.gpc0 5\n', b'\n'),
    (b'\n', b''),
    (b'0 open 1 10.0.0.1 5000\n', b'open 1 accept\n'),
    (b'0 cmd show table t; show table u\n',
     b'# table: t, type: ip, size:100, used:1\n0x0: key=10.0.0.1 use=1 exp=0 gpc0=5\n\nNo such table.\n\n'),
    (b'what\n', b'bad line\n'),
    (b'5 cmd ;\n', b''),
    (b'5 cmd clear table t\n', b'Entry currently in use, cannot remove.\n\n'),
    (b'5 close 1 2 3\n', b'close 1\n'),
    (b'5 close 1 2 3\n', b'no such connection\n'),
]
SCRIPT = b''.join(line for line, _ in SESSION)
ANSWERS = b''.join(answer for _, answer in SESSION)
# A line whose answer is longer than a pipe holds, with those before it.
FILLED = b''.join(b'0 cmd set table t key 10.0.%d.%d\n' % (n >> 8, n & 255) for n in range(100))


def done_within(parts, count):
    """How many of these parts, one behind the other, are whole in so many bytes, and how many bytes they are."""
    done, length = 0, 0
    while done < len(parts) and length + len(parts[done]) <= count:
        length += len(parts[done])
        done += 1
    return done, length


def said_behind(done, fault=b''):
    """What is said on standard error where so many lines are done: which of them were bad, and the fault."""
    bad = [number for number, (_, answer) in enumerate(SESSION[:done], 1) if answer == b'bad line\n']
    return b''.join(b'stickd: script line %d: bad line\n' % number for number in bad) + fault


def run_into_file(program, room, count):
    """A replay whose standard output is a file that takes so many bytes: its status, what it says, and what is in the file."""
    def limit():
        resource.setrlimit(resource.RLIMIT_FSIZE, (count, count))
    with open(os.path.join(room, 'output'), 'w+b') as file:
        # A program that is told by a signal that a file is full would end by it: so it isn't told.
        ran = subprocess.run([program, 'replay'], input=SCRIPT, stdout=file, stderr=subprocess.PIPE, timeout=PATIENCE, check=False,
                             preexec_fn=limit, restore_signals=False)
        file.seek(0)
        return ran.returncode, ran.stderr, file.read()


def outputs(given):
    """A standard output that takes so many bytes and then fails, for every number below what is written: these bytes stand there,
    and how many lines were done is said. Lines that are answered by nothing are done with the one before."""
    report = Report()
    with tempfile.TemporaryDirectory() as room:
        for count in range(len(ANSWERS)):
            done, _ = done_within([answer for _, answer in SESSION], count)
            wanted = 1, said_behind(done, b'stickd: writing failed after %d lines\n' % done), ANSWERS[:count]
            found = run_into_file(stickd(), room, count)
            report.check(found == wanted, f'{count} bytes are taken: {wanted} is wanted: {found}')
        found = run_into_file(stickd(), room, len(ANSWERS))
        report.check(found == (0, said_behind(len(SESSION)), ANSWERS), f'all bytes are taken: {found}')
    return report


def run_from_terminal(program, count):
    """A replay whose standard input gives so many bytes of the script and then fails, as a terminal that is closed does."""
    near, far = pty.openpty()
    tty.setraw(far)
    with subprocess.Popen([program, 'replay'], stdin=near, stdout=subprocess.PIPE, stderr=subprocess.PIPE, close_fds=True) as running:
        os.close(near)
        os.write(far, SCRIPT[:count])
        os.close(far)
        written, said = running.communicate(timeout=PATIENCE)
    return running.returncode, said, written


def inputs(given):
    """A standard input that gives so many bytes and then fails, for every number up to the script's length: the lines that are whole
    are answered, and how many they are is said."""
    report = Report()
    for count in range(len(SCRIPT) + 1):
        done, _ = done_within([line for line, _ in SESSION], count)
        fault = b'stickd: reading failed after %d lines\n' % done
        wanted = 1, said_behind(done, fault), b''.join(answer for _, answer in SESSION[:done])
        found = run_from_terminal(stickd(), count)
        report.check(found == wanted, f'{count} bytes are given: {wanted} is wanted: {found}')
    return report


def run_into_pipe(program, script, count):
    """A replay into a pipe whose reader takes so many bytes and is gone: its status, and what it says."""
    reader, writer = os.pipe()
    fcntl.fcntl(reader, fcntl.F_SETPIPE_SZ, 4096)
    with subprocess.Popen([program, 'replay'], stdin=subprocess.PIPE, stdout=writer, stderr=subprocess.PIPE) as running:
        os.close(writer)
        running.stdin.write(script)
        running.stdin.close()
        with open(reader, 'rb', buffering=0) as pipe:
            taken = 0
            while taken < count:
                taken += len(pipe.read(count - taken))
        said = running.stderr.read()
        running.wait(PATIENCE)
    return running.returncode, said


def pipes(given):
    """A reader of the standard output that is gone, so many times: it is said how many lines were done, as many as what it took has,
    and no more than that and what the pipe holds."""
    report, draw = Report(), Draw('pipes', given.seed)
    script = FILLED + b'0 cmd show table t\n' * 30
    answers = run([stickd(), 'replay'], script).stdout
    listing = len(answers) - 100
    parts = [b'\n'] * 100 + [bytes(listing // 30)] * 30
    report.check(listing % 30 == 0, 'each listing is as long')
    for _ in range(given.count):
        count = draw.randrange(len(answers) - 3 * 4096)
        status, said = run_into_pipe(stickd(), script, count)
        least, most = done_within(parts, count)[0], done_within(parts, count + 2 * 4096)[0]
        wanted = [b'stickd: writing failed after %d lines\n' % done for done in range(least, most + 1)]
        report.check(status == 1 and said in wanted, f'the reader took {count} bytes: {status}, {said!r}, {least} to {most} are wanted')
    return report
