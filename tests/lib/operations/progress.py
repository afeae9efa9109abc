"""Trials of what a terminal is told while much is listed, saved or loaded: how far that has come. Nothing of it is left there."""
import contextlib
import os
import pty
import re
import signal
import socket
import subprocess
import tempfile
import threading
import time

from lib.operations.safe_saving import FIRST
from lib.places import stickd
from lib.proxy import PATIENCE, free_port, read_all

CLEARED = '\r\x1b[K'
MANY = 400_000


def piece(numbers):
    """Lines of a listing, as the stats socket writes them."""
    return ''.join(f'0x{number:08x}: key=10.0.{number >> 8}.{number & 255} use=0 exp=0 gpc0=1\n' for number in numbers)


PIECES = ['# table: www, type: ip, size:1048576, used:300\n' + piece(range(100)), piece(range(100, 200)), piece(range(200, 300)) + '\n']


@contextlib.contextmanager
def answering(pieces, pause):
    """A socket that answers each client by these pieces, so many seconds apart."""
    def answer(client):
        with contextlib.suppress(OSError), client:
            read_all(client)
            for place, text in enumerate(pieces):
                time.sleep(pause * bool(place))
                client.sendall(text.encode())

    def accept():
        with contextlib.suppress(OSError):
            while True:
                threading.Thread(target=answer, args=(listener.accept()[0],), daemon=True).start()

    with tempfile.TemporaryDirectory(prefix='stickd-') as room, socket.socket(socket.AF_UNIX) as listener:
        path = os.path.join(room, 'commands')
        listener.bind(path)
        listener.listen()
        threading.Thread(target=accept, daemon=True).start()
        yield path
        listener.shutdown(socket.SHUT_RDWR)


class Told:
    """The program with a terminal for its standard error alone, and what it has said there so far."""

    def __init__(self, *words):
        self.mine, theirs = pty.openpty()
        self.program = subprocess.Popen([stickd(), *words], stdin=subprocess.DEVNULL, stdout=subprocess.PIPE, stderr=theirs)
        os.close(theirs)
        self.said = ''
        self.reader = threading.Thread(target=self.read)
        self.reader.start()

    def read(self):
        # A terminal whose other side is closed can't be read.
        with contextlib.suppress(OSError):
            while part := os.read(self.mine, 65536):
                self.said += part.decode()

    def ended(self):
        """Its status, what it has written on standard output, and what it has said."""
        written = self.program.communicate(timeout=PATIENCE)[0].decode()
        self.reader.join(PATIENCE)
        return self.program.returncode, written, self.said

    def __enter__(self):
        return self

    def __exit__(self, *_):
        self.program.kill()
        self.program.wait()
        self.program.stdout.close()
        self.reader.join(PATIENCE)
        os.close(self.mine)


def lines_in(said, verb, whole):
    """The lines that tell how far something has come, as pairs of entries and their rate; and what else was said."""
    line = re.compile(f'\r{verb} (\\d+) of {whole} entries, (\\d+) a second\x1b\\[K')
    return [(int(entries), int(rate)) for entries, rate in line.findall(said)], line.sub('', said)


def a_long_listing_is_told():
    """A listing that takes longer tells how many of its entries have come, and how fast, and so does one that is saved. At the end
    nothing of that is left, and what is written is whole."""
    with answering(PIECES, 1.2) as path:
        for words in (('show', 'table', 'www'), ('save', 'www')):
            with Told('ctl', '--socket', path, *words) as told:
                status, written, said = told.ended()
            lines, others = lines_in(said, 'listed', 300)
            assert status == 0 and [entries for entries, _ in lines] == [200, 300], (words, status, said)
            assert 0 < lines[0][1] <= 200 / 1.2 and 0 < lines[1][1] <= 300 / 2.4, (words, lines)
            assert others == CLEARED, (words, others)
            assert written == ''.join(PIECES) if words[0] == 'show' else written.count(' cmd set table www key ') == 300, (words, written)


def a_short_listing_is_not_told():
    """One that takes less than a second says nothing on a terminal."""
    with answering(PIECES, 0) as path, Told('ctl', '--socket', path, 'show', 'table', 'www') as told:
        assert told.ended() == (0, ''.join(PIECES), '')


def nothing_is_told_off_a_terminal():
    """Nor does a long one where standard error is no terminal."""
    with answering(PIECES, 1.2) as path:
        done = subprocess.run([stickd(), 'ctl', '--socket', path, 'show', 'table', 'www'], stdin=subprocess.DEVNULL, capture_output=True,
                              timeout=PATIENCE, check=False)
    assert (done.returncode, done.stdout.decode(), done.stderr) == (0, ''.join(PIECES), b''), done


def a_long_start_is_told():
    """A start that loads much tells how many entries are loaded. It stands still now and then, so that it takes as long on any
    machine."""
    with tempfile.TemporaryDirectory(prefix='stickd-') as room:
        conf, saved = os.path.join(room, 'proxy.cfg'), os.path.join(room, 'saved')
        with open(conf, 'w', encoding='utf-8') as file:
            file.write('\n    '.join(['listen www', f'bind 127.0.0.1:{free_port()}', 'stick-table type integer size 1m store gpc0',
                                     'server one 127.0.0.1:9']) + '\n')
        with open(saved, 'w', encoding='utf-8') as file:
            file.write(FIRST)
            file.writelines(f'0 cmd set table www key {number} data.gpc0 1\n' for number in range(MANY))
            file.write(f'# entries: {MANY}\n')
        with Told('run', conf, '--socket', f'{room}/commands', '--threads', '1', '--load', saved, '--check') as told:
            end = time.monotonic() + PATIENCE
            while 'loaded' not in told.said and told.program.poll() is None and time.monotonic() < end:
                time.sleep(0.05)
                told.program.send_signal(signal.SIGSTOP)
                time.sleep(1.1)
                told.program.send_signal(signal.SIGCONT)
            status, _, said = told.ended()
        lines, others = lines_in(said, 'loaded', MANY)
        assert status == 0 and lines and all(0 < entries <= MANY for entries, _ in lines), (status, said)
        assert lines == sorted(lines, key=lambda line: line[0]) and CLEARED in others and 'loaded' not in others, said


TRIALS = [a_long_listing_is_told, a_short_listing_is_not_told, nothing_is_told_off_a_terminal, a_long_start_is_told]
