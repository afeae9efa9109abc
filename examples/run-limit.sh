#!/usr/bin/env bash
# examples/run-limit.sh [--program PATH]
#
# Shows the proxy at work: a server that greets, stickd in front of it with a limit of two connections for each address, and
# clients, the third of which is turned away. It wants python3; and the program at PATH, or the one that is built here
# (crates/stickd/out/stickd), or an installed one. Where there is none it tries the sources by `rt try`, which takes a minute or
# two. All of it is on 127.0.0.1, and nothing is left behind.
set -euo pipefail
top=$(cd "$(dirname "${BASH_SOURCE[0]}")/.." && pwd)

fail() {
    echo "run-limit.sh: $1" >&2
    exit "${2:-1}"
}

program=
case "$#:${1:-}" in
    0:) ;;
    1:--help | 1:-h) sed -n '2,/^[^#]/s/^# \{0,1\}//p' "${BASH_SOURCE[0]}"; exit ;;
    2:--program)
        program=$(realpath -- "$2")
        [[ -f $program && -x $program ]] || fail "$2 is no program" ;;
    *) fail "it takes --program PATH alone, and --help" 2 ;;
esac
command -v python3 >/dev/null || fail "python3 is not here"
if [[ -z $program && -x $top/crates/stickd/out/stickd ]]; then
    program=$top/crates/stickd/out/stickd
elif [[ -z $program ]]; then
    program=$(command -v stickd || true)
fi
if [[ -n $program ]]; then
    run=("$program")
elif command -v rt >/dev/null; then
    echo "Nothing is built: trying the sources by 'rt try', in a minute or two .." >&2
    run=(rt try --seconds 600 --)
    cd "$top/crates/stickd"
else
    fail "there is no stickd: build crates/stickd, install one, or name one by --program PATH"
fi

room=$(mktemp -d)
server= proxy=
# The proxy is a group of its own, so that what `rt` has started ends with it.
trap 'kill -- $server ${proxy:+"-$proxy"} 2>/dev/null || true; rm -rf "$room"' EXIT

# The server says which port it was given. The proxy's is one that was free just now.
python3 - "$room/server" <<'SERVER' &
import os, socketserver, sys
class Greeter(socketserver.BaseRequestHandler):
    def handle(self):
        self.request.sendall(b'welcome\n')
        self.request.recv(1)
socketserver.ThreadingTCPServer.daemon_threads = True
server = socketserver.ThreadingTCPServer(('127.0.0.1', 0), Greeter)
with open(sys.argv[1] + '.new', 'w') as told:
    told.write(str(server.server_address[1]))
os.rename(sys.argv[1] + '.new', sys.argv[1])
server.serve_forever()
SERVER
server=$!
for ((tries = 0; tries < 200; tries++)); do
    [[ ! -e $room/server ]] || break
    sleep 0.05
done
[[ -e $room/server ]] || fail "the server did not start"
port=$(python3 -c 'import socket; print(socket.create_server(("127.0.0.1", 0)).getsockname()[1])')

cat > "$room/limit.cfg" <<CONFIGURATION
listen www
    bind 127.0.0.1:$port
    stick-table type ip size 100k expire 10m store conn_cur,conn_cnt
    tcp-request connection track-sc0 src
    tcp-request connection reject if { sc0_conn_cur gt 2 }
    server greeter 127.0.0.1:$(cat "$room/server")
CONFIGURATION
setsid "${run[@]}" run "$room/limit.cfg" --socket "$room/stickd.sock" --threads 2 --stop-after 4 > "$room/out" 2> "$room/err" &
proxy=$!

python3 - "$room/stickd.sock" "$port" "$proxy" <<'CLIENTS' || { cat "$room/err" "$room/out" >&2; fail "the proxy did not serve"; }
import os, socket, sys, time

def commands():
    """The command socket, once there is one, and as long as the proxy lives."""
    while True:
        answers = socket.socket(socket.AF_UNIX)
        try:
            answers.connect(sys.argv[1])
            return answers
        except OSError:
            if not os.path.exists('/proc/' + sys.argv[3]):
                sys.exit(1)
            time.sleep(0.05)

def client(number):
    """One that is turned away reads an end, or a reset, be it before it knows that it is connected."""
    try:
        stream = socket.create_connection(('127.0.0.1', int(sys.argv[2])), 20)
        said = stream.recv(100).decode().strip()
    except ConnectionResetError:
        stream, said = None, ''
    print(f'client {number}: {said or "turned away"}')
    return stream

operator = commands()
print('the rule: reject if { sc0_conn_cur gt 2 }')
clients = [client(number) for number in (1, 2, 3)]
# The third is told before its reference goes back.
time.sleep(0.2)
operator.sendall(b'show table www\n')
operator.shutdown(socket.SHUT_WR)
print(operator.makefile().read().strip())
clients[0].close()
print('client 1 leaves')
time.sleep(0.2)
client(4)
CLIENTS
wait "$proxy" || { cat "$room/err" >&2; fail "the proxy ended with a fault"; }
grep '^settled' "$room/out"
