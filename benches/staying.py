"""The tests of `beside_haproxy` whose clients come at once and stay: exchanges of 64 bytes, and servers that are installed here."""
import contextlib
import os
import pwd
import re
import shutil
import socket
import subprocess
import tempfile
import time

CLIENTS, THREADS = (1, 16, 50, 200), (1, 4)
ECHO, SERVED = 19294, 19295
# Where Debian has Postgres's own programs.
POSTGRES = '/usr/lib/postgresql'


@contextlib.contextmanager
def served(words, port, **more):
    """A server at work, from when its port takes clients on."""
    process = subprocess.Popen(words, stdout=subprocess.DEVNULL, stderr=subprocess.DEVNULL, **more)
    try:
        end = time.monotonic() + 20
        while True:
            with contextlib.suppress(OSError), socket.create_connection(('127.0.0.1', port), 1):
                break
            if process.poll() is not None or time.monotonic() > end:
                raise SystemExit(f'{words[0]} takes no client')
            time.sleep(0.05)
        yield process
    finally:
        process.terminate()
        process.wait()


def said_by(words, **more):
    return subprocess.run(words, capture_output=True, text=True, timeout=120, check=True, **more).stdout


def busiest(before, after, threads):
    """What the thread took that took most, as a multiple of the mean of so many."""
    used = sorted((after[thread] - before.get(thread, 0) for thread in after), reverse=True)[:threads]
    return used[0] / (sum(used) / threads or 1)


def exchange(start, scale, built, port, shards_for):
    """Exchanges a second, processor time of one, and the part of the thread that took most, of so many clients on so many threads."""
    found = {}
    with served([os.path.join(built, 'echo'), str(ECHO)], ECHO):
        for threads in THREADS:
            for clients in CLIENTS:
                count, name = int((60_000 if clients == 1 else 200_000) * scale), f'{clients} on {threads}'
                with start(limit=100_000, threads=threads, backend=ECHO, more=shards_for(threads)) as proxy:
                    before, cpu = proxy.ticks(), proxy.cpu()
                    rate = float(said_by([os.path.join(built, 'staying'), str(port), str(clients), str(count)]))
                    found[f'{name} a s'] = rate
                    found[f'{name} cpu us'] = (proxy.cpu() - cpu) / count * 1e6
                    found[f'{name} busiest'] = busiest(before, proxy.ticks(), threads)
    return found


# ---- servers that are installed

@contextlib.contextmanager
def redis(room):
    with served(['redis-server', '--port', str(SERVED), '--bind', '127.0.0.1', '--save', '', '--dir', room], SERVED):
        yield


def redis_rates(port, scale):
    words = ['-t', 'ping_mbulk,set,get', '-c', '50', '-n', str(int(100_000 * scale)), '--csv']
    said = said_by(['redis-benchmark', '-h', '127.0.0.1', '-p', str(port), *words])
    return {f'redis {name} a s': float(rate) for name, rate in re.findall(r'^"([A-Z]+)[^"]*","([0-9.]+)"', said, re.M)}


def postgres_folder():
    """The folder of Postgres's programs, if it is installed."""
    versions = sorted(os.listdir(POSTGRES), key=float) if os.path.isdir(POSTGRES) else []
    return os.path.join(POSTGRES, versions[-1], 'bin') if versions else None


@contextlib.contextmanager
def postgres(room):
    """It doesn't run as root."""
    folder, data = postgres_folder(), os.path.join(room, 'data')
    user = 'postgres' if os.getuid() == 0 else pwd.getpwuid(os.getuid()).pw_name
    shutil.chown(room, user)
    as_user = ['runuser', '-u', user, '--'] if os.getuid() == 0 else []
    said_by([*as_user, f'{folder}/initdb', '-D', data, '-A', 'trust', '-U', 'bench', '--no-sync'], cwd=room)
    words = [f'{folder}/postgres', '-D', data, '-p', str(SERVED), '-h', '127.0.0.1', '-k', room, '-c', 'max_connections=200',
             '-c', 'fsync=off']
    # Postgres ends at once by SIGINT, and waits for its clients by SIGTERM: all of them are gone by then.
    with served([*as_user, *words], SERVED, cwd=room):
        said_by([f'{folder}/pgbench', '-h', '127.0.0.1', '-p', str(SERVED), '-U', 'bench', '-i', '-q', '-s', '10', 'postgres'])
        yield


def postgres_rates(port, scale):
    found = {}
    for name, words in (('tpcb', []), ('select', ['-S']), ('a connection each', ['-S', '-C'])):
        said = said_by([f'{postgres_folder()}/pgbench', '-h', '127.0.0.1', '-p', str(port), '-U', 'bench', '-n', '-c', '16', '-j', '2',
                        '-T', str(max(1, int(5 * scale))), *words, 'postgres'])
        found[f'pgbench {name} a s'] = float(re.search(r'^tps = ([0-9.]+)', said, re.M)[1])
    return found


@contextlib.contextmanager
def nginx(room):
    conf = os.path.join(room, 'nginx.conf')
    with open(conf, 'w', encoding='utf-8') as text:
        text.write(f'daemon off; master_process off; pid {room}/pid; error_log {room}/errors crit; events {{ worker_connections 2000; }}\n'
                   f'http {{ access_log off; server {{ listen 127.0.0.1:{SERVED}; location / {{ return 200 "here\\n"; }} }} }}\n')
    with served(['nginx', '-p', room, '-c', conf], SERVED):
        yield


def nginx_rates(port, scale):
    said = said_by(['wrk', '-t2', '-c64', f'-d{max(1, int(5 * scale))}s', f'http://127.0.0.1:{port}/'])
    return {'wrk a s': float(re.search(r'^Requests/sec: *([0-9.]+)', said, re.M)[1])}


@contextlib.contextmanager
def ssh(room):
    for name in ('host', 'key'):
        said_by(['ssh-keygen', '-q', '-t', 'ed25519', '-N', '', '-f', os.path.join(room, name)])
    words = ['/usr/sbin/sshd', '-D', '-f', '/dev/null', '-p', str(SERVED), '-h', f'{room}/host', '-o', 'ListenAddress=127.0.0.1',
             '-o', f'AuthorizedKeysFile={room}/key.pub', '-o', 'StrictModes=no', '-o', f'PidFile={room}/pid', '-o', 'PermitRootLogin=yes']
    ssh.key = os.path.join(room, 'key')
    os.makedirs('/run/sshd', exist_ok=True)
    with served(words, SERVED):
        yield


def ssh_rates(port, scale):
    size, began = int(200e6 * scale), time.monotonic()
    said_by(['sh', '-c', f'ssh -q -i {ssh.key} -p {port} -o StrictHostKeyChecking=no -o UserKnownHostsFile=/dev/null '
             f'-o BatchMode=yes 127.0.0.1 head -c {size} /dev/zero | wc -c'])
    return {'ssh MB/s': size / 1e6 / (time.monotonic() - began)}


# Each server: whether it is installed, what starts it, and what is measured of it through a port.
SERVERS = [
    (lambda: shutil.which('redis-server') and shutil.which('redis-benchmark'), redis, redis_rates),
    (postgres_folder, postgres, postgres_rates),
    (lambda: shutil.which('nginx') and shutil.which('wrk'), nginx, nginx_rates),
    (lambda: os.path.exists('/usr/sbin/sshd') and shutil.which('ssh'), ssh, ssh_rates),
]


def real(start, scale, port, shards_for):
    """What the tools of servers say that are installed, on two threads, beside the processor time of the proxy meanwhile."""
    found = {}
    for is_installed, serve, rates in SERVERS:
        if not is_installed():
            continue
        with tempfile.TemporaryDirectory(prefix='beside-') as room, serve(room):
            with start(limit=100_000, threads=2, backend=SERVED, more=shards_for(2)) as proxy:
                cpu = proxy.cpu()
                found.update(rates(port, scale))
                found[f'{serve.__name__} cpu s'] = proxy.cpu() - cpu
    return found
