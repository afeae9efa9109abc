"""What trials of a watched program share: it has a stats socket and answers Prometheus; clients of both."""
import contextlib
import os
import re
import socket
import time

from lib.proxy import PATIENCE, TABLE, TRACK, Proxy, Server, free_port, greets, read_all, reject_above


class Watched(Proxy):
    """The program at work with all that shows what it does."""

    def __init__(self, server, lines, *words, **others):
        self.metrics_port = free_port()
        super().__init__(server, lines, '--metrics', f'127.0.0.1:{self.metrics_port}', *words, **others)

    def start(self):
        self.stats = os.path.join(self.room.name, 'stats')
        if '--stats-socket' not in self.words:
            self.words += ['--stats-socket', self.stats]
        # When it was scraped, by any thread.
        self.scrapes = []
        super().start()

    def stats_client(self):
        """A client of the stats socket that has said nothing yet."""
        stream = socket.socket(socket.AF_UNIX)
        stream.settimeout(PATIENCE)
        stream.connect(self.stats)
        return stream

    def told(self, line):
        """What one line of commands is answered on the stats socket, whose end isn't waited for by ending first."""
        with self.stats_client() as stream:
            stream.sendall(line.encode() + b'\n')
            return read_all(stream).decode('utf-8', 'replace')

    def info(self):
        """What `show info` says, by its names."""
        lines = self.told('show info').splitlines()
        return dict(line.split(': ', 1) for line in lines if line)

    def stat(self):
        """What `show stat` says: rows by their second column, each a table by HAProxy's names."""
        head, *rows = [line for line in self.told('show stat').splitlines() if line]
        assert head.startswith('# pxname,svname,'), head
        names = head[2:].split(',')
        return {fields['svname']: fields for fields in (dict(zip(names, row.split(','))) for row in rows)}

    def fetched(self, request):
        """What an HTTP request is answered: the status, the head and the body."""
        with socket.create_connection(('127.0.0.1', self.metrics_port), PATIENCE) as stream:
            stream.sendall(request)
            head, _, body = read_all(stream).partition(b'\r\n\r\n')
        return int(head.split(b' ')[1]), head.decode(), body.decode()

    def metrics(self):
        """What Prometheus is told: each sample by its name with its labels."""
        self.scrapes.append(time.monotonic())
        status, head, body = self.fetched(b'GET /metrics HTTP/1.1\r\nHost: here\r\n\r\n')
        assert status == 200 and 'text/plain; version=0.0.4' in head, head
        return {name: int(value) for name, value in re.findall(r'^([a-z_]+(?:\{[^}]*\})?) (\d+)$', body, re.M)}


@contextlib.contextmanager
def watched(*words, limit=1_000, serve=greets, **others):
    """The program at work, which admits so many connections of an address at a time."""
    with Server(serve) as server, Watched(server.port, [TABLE, TRACK, reject_above(limit)], *words, **others) as proxy:
        yield proxy
