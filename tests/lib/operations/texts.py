"""Trials of what is told in words that others have fixed, each whole: HAProxy's of its stats socket, Prometheus' of the metrics, and
HTTP's of the answers round them. All of it was typed by hand."""
import contextlib
import json
import os
import re

from lib.operations.watched import Watched, watched
from lib.proxy import TABLE, TRACK, FarServer, arrive, free_port, is_greeted, read_all, wait_for

# What HAProxy answers to `show info` (Management Guide 2.6), without the lines that this program has no value for. A star stands for
# what another run has otherwise.
INFO = '''Name: stickd
Version: *
Release_date: *
Nbthread: 4
Nbproc: 1
Process_num: 1
Pid: {pid}
Uptime: *
Uptime_sec: *
Maxconn: 100
Hard_maxconn: 100
CurrConns: 0
CumConns: 2
CumReq: 1
Maxpipes: 0
PipesUsed: 0
PipesFree: 0
ConnRate: *
ConnRateLimit: 0
MaxConnRate: *
SessRate: *
SessRateLimit: 0
MaxSessRate: *
Tasks: 0
Run_queue: 0
node: {node}
Stopping: 0
TotalBytesOut: 0

'''
VARYING_INFO = 'Version|Release_date|Uptime|Uptime_sec|ConnRate|MaxConnRate|SessRate|MaxSessRate'

# What HAProxy answers to `show stat` then: its columns up to those of its modules, without the values that this program doesn't have. A
# star stands for a rate.
STAT = '''# pxname,svname,qcur,qmax,scur,smax,slim,stot,bin,bout,dreq,dresp,ereq,econ,eresp,wretr,wredis,status,weight,act,bck,\
chkfail,chkdown,lastchg,downtime,qlimit,pid,iid,sid,throttle,lbtot,tracked,type,rate,rate_lim,rate_max,check_status,check_code,\
check_duration,hrsp_1xx,hrsp_2xx,hrsp_3xx,hrsp_4xx,hrsp_5xx,hrsp_other,hanafail,req_rate,req_rate_max,req_tot,cli_abrt,srv_abrt,\
comp_in,comp_out,comp_byp,comp_rsp,lastsess,last_chk,last_agt,qtime,ctime,rtime,ttime,agent_status,agent_code,agent_duration,\
check_desc,agent_desc,check_rise,check_fall,check_health,agent_rise,agent_fall,agent_health,addr,cookie,mode,algo,conn_rate,\
conn_rate_max,conn_tot,intercepted,dcon,dses,wrew,connect,reuse,cache_lookups,cache_hits,srv_icur,src_ilim,qtime_max,ctime_max,\
rtime_max,ttime_max,eint,idle_conn_cur,safe_conn_cur,used_conn_cur,need_conn_est,uweight,agg_server_status,agg_server_check_status,\
agg_check_status,-,
www,FRONTEND,,,0,1,100,1,0,0,0,0,,,,,,OPEN,,,,,,,,,1,2,0,,,,0,*,0,*,,,,,,,,,,,,,,,,,,,,,,,,,,,,,,,,,,,,,,,,tcp,,*,*,2,,1,0,,,,,,,,,,\
,,,,,,,,,,,-,
www,one,0,0,0,1,,1,0,0,,0,,1,,,,no check,1,1,0,,,,,,1,2,1,,1,,2,*,,*,,,,,,,,,,,,,,,,,,,,,,,,,,,,,,,,,,,,,,{server},,tcp,,,,,,,,,,,,\
,,,,,,,,,,,,,,,,-,
www,BACKEND,0,0,0,1,,1,0,0,0,0,,1,,,,UP,1,1,0,,,,,,1,2,0,,1,,1,*,,*,,,,,,,,,,,,,,,,,,,,,,,,,,,,,,,,,,,,,,,,tcp,,,,,,,,,,,,,,,,,,,,\
,,,,,,,,-,

'''
RATES = ('rate', 'rate_max', 'conn_rate', 'conn_rate_max')

# The metrics then, by Prometheus' text format 0.0.4, without what is said of each. A star stands for what another run has otherwise.
METRICS = '''# TYPE stickd_build_info gauge
stickd_build_info{version="0.2.0"} 1
# TYPE stickd_connections gauge
stickd_connections 0
# TYPE stickd_connections_peak gauge
stickd_connections_peak 1
# TYPE stickd_connections_limit gauge
stickd_connections_limit 100
# TYPE stickd_connections_in_hand gauge
stickd_connections_in_hand 0
# TYPE stickd_threads gauge
stickd_threads 4
# TYPE stickd_draining gauge
stickd_draining 0
# TYPE stickd_uptime_seconds gauge
stickd_uptime_seconds *
# TYPE stickd_rules_version gauge
stickd_rules_version 1
# TYPE stickd_connections_accepted_total counter
stickd_connections_accepted_total 2
# TYPE stickd_connections_admitted_total counter
stickd_connections_admitted_total 1
# TYPE stickd_connections_rejected_total counter
stickd_connections_rejected_total 1
# TYPE stickd_accept_failures_total counter
stickd_accept_failures_total{cause="descriptors"} 0
stickd_accept_failures_total{cause="memory"} 0
stickd_accept_failures_total{cause="other"} 0
# TYPE stickd_headers_total counter
stickd_headers_total 0
# TYPE stickd_header_failures_total counter
stickd_header_failures_total{cause="late"} 0
stickd_header_failures_total{cause="wrong"} 0
stickd_header_failures_total{cause="ended"} 0
stickd_header_failures_total{cause="untrusted"} 0
# TYPE stickd_connect_failures_total counter
stickd_connect_failures_total{cause="refused"} 1
stickd_connect_failures_total{cause="timeout"} 0
stickd_connect_failures_total{cause="no_port"} 0
stickd_connect_failures_total{cause="other"} 0
# TYPE stickd_timeouts_total counter
stickd_timeouts_total{timeout="client"} 0
stickd_timeouts_total{timeout="server"} 0
stickd_timeouts_total{timeout="fin"} 0
# TYPE stickd_connections_drained_total counter
stickd_connections_drained_total 0
# TYPE stickd_connections_ended_total counter
stickd_connections_ended_total 1
# TYPE stickd_bytes_total counter
stickd_bytes_total{direction="in"} 0
stickd_bytes_total{direction="out"} 0
# TYPE stickd_untracked_total counter
stickd_untracked_total{cause="full"} 0
stickd_untracked_total{cause="references"} 0
# TYPE stickd_refused_events_total counter
stickd_refused_events_total{cause="memory"} 0
stickd_refused_events_total{cause="stale"} 0
stickd_refused_events_total{cause="exhausted"} 0
# TYPE stickd_commands_total counter
stickd_commands_total *
# TYPE stickd_reloads_total counter
stickd_reloads_total{result="done"} 0
stickd_reloads_total{result="refused"} 0
# TYPE stickd_rolls_total counter
stickd_rolls_total *
# TYPE stickd_expiries_total counter
stickd_expiries_total *
# TYPE stickd_housekeeping_refusals_total counter
stickd_housekeeping_refusals_total 0
# TYPE stickd_table_size_entries gauge
stickd_table_size_entries{table="www"} 1024
# TYPE stickd_table_entries gauge
stickd_table_entries{table="www"} 2
# TYPE stickd_table_references gauge
stickd_table_references{table="www"} 0
# TYPE stickd_table_purged_entries_total counter
stickd_table_purged_entries_total{table="www"} 0
# TYPE process_cpu_seconds_total counter
process_cpu_seconds_total *
# TYPE process_open_fds gauge
process_open_fds *
# TYPE process_max_fds gauge
process_max_fds *
# TYPE process_virtual_memory_bytes gauge
process_virtual_memory_bytes *
# TYPE process_resident_memory_bytes gauge
process_resident_memory_bytes *
# TYPE process_start_time_seconds gauge
process_start_time_seconds *
'''
VARYING_METRICS = 'stickd_(?:uptime_seconds|commands_total|rolls_total|expiries_total)|process_[a-z_]+'


@contextlib.contextmanager
def two_came():
    """The program at work once its server has refused a client, and its rules have rejected another; and where the server would be."""
    port = free_port()
    rules = [TABLE, TRACK, 'tcp-request connection reject if { src 127.0.0.2 }']
    with Watched(port, rules, '--connections', '100', threads=4) as proxy:
        with proxy.connect() as client:
            assert read_all(client) == b''
        assert not is_greeted(arrive(proxy, '127.0.0.2'))
        wait_for('one has ended, and two were judged', lambda: proxy.metrics()['stickd_connections_ended_total'] == 1
                 and proxy.metrics()['stickd_connections_rejected_total'] == 1)
        yield proxy, f'127.0.0.1:{port}'


def without_rates(stat):
    """The rows of `show stat` with a star for each rate."""
    head, *rows = stat.splitlines()
    names, shown = head[2:].split(','), [head]
    for row in rows:
        fields = zip(names, row.split(','))
        shown.append(','.join('*' if name in RATES and value.isdigit() else value for name, value in fields))
    return '\n'.join(shown) + '\n'


def answers_are_those_of_haproxy():
    """`show info` and `show stat` are HAProxy's lines and columns, in their order and each with its value."""
    with two_came() as (proxy, server):
        info = re.sub(f'^({VARYING_INFO}): .+$', r'\1: *', proxy.told('show info'), flags=re.M)
        assert info == INFO.format(pid=proxy.program.pid, node=os.uname().nodename), info
        stat = without_rates(proxy.told('show stat'))
        assert stat == STAT.format(server=server), stat


def metrics_are_those_of_prometheus():
    """Each metric has a line that says what it is, then one of its type, then its samples."""
    with two_came() as (proxy, _):
        text = proxy.fetched(b'GET /metrics HTTP/1.1\r\nHost: here\r\n\r\n')[2]
        assert len(re.findall(r'^# HELP (\w+) [A-Z].+\.\n# TYPE \1 ', text, re.M)) == text.count('# HELP ') == 37, text
        shown = re.sub(f'^({VARYING_METRICS}) [0-9.]+$', r'\1 *', re.sub(r'^# HELP .*\n', '', text, flags=re.M), flags=re.M)
        assert shown == METRICS, shown


# Requests, and the status of their answers.
REQUESTS = [
    ('GET /metrics HTTP/1.1\r\nHost: a\r\n\r\n', 200), ('GET /metrics HTTP/1.0\r\n\r\n', 200),
    ('GET /metrics?name=a HTTP/1.1\r\n\r\n', 200), ('\r\nGET /metrics HTTP/1.1\r\n\r\nbody', 200),
    (f'GET /metrics HTTP/1.1\r\nA: {"a" * 8_162}\r\n\r\n', 200), (f'GET /metrics HTTP/1.1\r\nA: {"a" * 8_163}\r\n\r\n', 400),
    ('GET / HTTP/1.1\r\n\r\n', 404), ('GET /metrics/ HTTP/1.1\r\n\r\n', 404), ('POST /other HTTP/1.1\r\n\r\n', 404),
    ('POST /metrics HTTP/1.1\r\n\r\n', 405), ('PUT /metrics HTTP/1.1\r\n\r\n', 405), ('get /metrics HTTP/1.1\r\n\r\n', 405),
    ('GET /metrics HTTP/2.0\r\n\r\n', 400), ('\1\2\r\n\r\n', 400),
]
# The heads and the bodies of the answers, by their status; the metrics stand elsewhere.
PLAIN = 'Content-Type: text/plain; charset=utf-8'
ANSWERS = {
    200: 'HTTP/1.1 200 OK\r\nContent-Type: text/plain; version=0.0.4; charset=utf-8\r\nContent-Length: {}\r\nConnection: close',
    400: f'HTTP/1.1 400 Bad Request\r\n{PLAIN}\r\nContent-Length: 37\r\nConnection: close',
    404: f'HTTP/1.1 404 Not Found\r\n{PLAIN}\r\nContent-Length: 29\r\nConnection: close',
    405: f'HTTP/1.1 405 Method Not Allowed\r\n{PLAIN}\r\nContent-Length: 29\r\nAllow: GET, HEAD\r\nConnection: close',
}
BODIES = {400: 'This is no request that can be read.\n', 404: 'The metrics are at /metrics.\n', 405: 'The metrics are read by GET.\n'}


def requests_are_answered_in_http():
    """Each request has the status that it is due, and the whole answer that goes with it."""
    with watched() as proxy:
        for request, wanted in REQUESTS:
            status, head, body = proxy.fetched(request.encode())
            assert status == wanted and head == ANSWERS[wanted].format(len(body.encode())), (request[:60], head)
            assert body == BODIES.get(wanted, body), (request[:60], body)


# What HAProxy answers to `help`, but for the commands that are its own alone, and with `oldest-first`, `reload` and `stop`,
# which it hasn't.
LIST = '''  clear table <table> [<filter>]*         : remove an entry from a table (filter: data/key)
  reload                                  : read the rules again, of the file of the start
  set table <table> key <k> [data.* <v>]* : update or create a table entry's data
  show errors                             : report last request and/or response errors for each proxy
  show info [json|typed]*                 : report information about the running process
  show stat [json|no-maint|typed|up]*     : report counters for each proxy and server
  show stat <iid> <type> <sid> [json|..]* : report counters of a proxy (-1: any), of types (1, 2, 4; -1: any), of a server (-1: any)
  show table <table> [<filter>]*          : report table usage stats or dump this table's contents (filter: data/key)
  show table <table> oldest-first         : dump this table's contents in the order in which entries go
  shutdown frontend <frontend>            : stop a specific frontend
  stop [<ms>]                             : end the program; open connections may go on for so long
  help [<command>]                        : list matching or all commands
  prompt                                  : toggle interactive mode with prompt
  quit                                    : disconnect

'''
HELP = 'The following commands are valid at this level:\n' + LIST
# The last three commands follow each list.
COMMON = ''.join(LIST.splitlines(keepends=True)[-4:])
HELP_SHOW = HELP.splitlines(keepends=True)[0] + ''.join(line for line in LIST.splitlines(keepends=True) if line.startswith('  show ')) + COMMON
HELP_INFO = HELP.splitlines(keepends=True)[0] + ''.join(line for line in LIST.splitlines(keepends=True) if 'show info' in line) + COMMON
UNKNOWN = 'Unknown command. Please enter one of the following commands only:\n' + LIST
EMPTY_TABLE = '# table: www, type: ip, size:1024, used:0\n\n'
# Lines, and their whole answers.
LINES = [
    ('show info brief', UNKNOWN), ('show stat -1 4', UNKNOWN), ('show stat x y z', UNKNOWN), ('show errors', '\n'), ('SHOW INFO', UNKNOWN),
    ('show', UNKNOWN), ('show stat none -1 -1', 'No such proxy.\n\n'), ('show stat 0 -1 -1', 'No such proxy.\n\n'),
    ('show stat 99 -1 -1 typed', '\n'), ('show stat 99 -1 -1 json', '[]\n\n'), ('show stat -1 1 -1 json brief', UNKNOWN),
    ('show sess', UNKNOWN), ('help', HELP), ('help show', HELP_SHOW), ('help sho', HELP_SHOW), ('help show info', HELP_INFO),
    ('help none', HELP), ('prompt now', UNKNOWN), ('quit', ''),
    ('shutdown frontend', 'A frontend name is expected.\n\n'), ('shutdown frontend none', 'No such frontend.\n\n'),
    ('shutdown frontend www now', UNKNOWN), ('shutdown sessions server www/s1', UNKNOWN), ('shutdown table www', UNKNOWN),
    ('stop 30s', UNKNOWN), ('stop 1 2', UNKNOWN), ('reload now', UNKNOWN), (' show \t table \r', EMPTY_TABLE),
    ('show table www oldest-first', EMPTY_TABLE), ('show table none', 'No such table.\n\n'), ('show tables', UNKNOWN),
    ('set timeout cli 1d', UNKNOWN), ('', UNKNOWN), (' \t\r', UNKNOWN), ('blah', UNKNOWN),
]


def lines_are_answered_in_words_of_haproxy():
    """Each line of the stats socket has its whole answer, in HAProxy's words where HAProxy has some."""
    with watched() as proxy:
        for line, wanted in LINES:
            said = proxy.told(line)
            assert said == wanted, (line, said)


# What HAProxy answers to `show info typed` then, without the lines that this program has no value for. The bytes out are a counter here.
TYPED_INFO = '''0.Name.1:POS:str:stickd
1.Version.1:POS:str:*
2.Release_date.1:POS:str:*
3.Nbthread.1:CGS:u32:4
4.Nbproc.1:CGS:u32:1
5.Process_num.1:KGP:u32:1
6.Pid.1:SGP:u32:*
7.Uptime.1:MDP:str:*
8.Uptime_sec.1:MDP:u32:*
15.Maxconn.1:CLP:u32:100
16.Hard_maxconn.1:CLP:u32:100
17.CurrConns.1:MGP:u32:0
18.CumConns.1:MCP:u64:2
19.CumReq.1:MCP:u64:1
23.Maxpipes.1:CLP:u32:0
24.PipesUsed.1:MGP:u32:0
25.PipesFree.1:MGP:u32:0
26.ConnRate.1:MRP:u32:*
27.ConnRateLimit.1:CLP:u32:0
28.MaxConnRate.1:MMP:u32:*
29.SessRate.1:MRP:u32:*
30.SessRateLimit.1:CLP:u32:0
31.MaxSessRate.1:MRP:u32:*
47.Tasks.1:MGP:u32:0
48.Run_queue.1:MGP:u32:0
50.node.1:COS:str:*
52.Stopping.1:MGP:u32:0
61.TotalBytesOut.1:MCP:u64:0

'''
# Where values differ from run to run in the typed output.
VARYING_TYPED = re.compile(r'^([0-9]+\.(?:Version|Release_date|Pid|Uptime|Uptime_sec|node|ConnRate|MaxConnRate|SessRate|MaxSessRate)\.1:\w+:\w+):.+$', re.M)


def typed_answers_are_those_of_haproxy():
    """The typed outputs have HAProxy's places, tags and types, and the JSON ones say the same."""
    with two_came() as (proxy, server):
        info = VARYING_TYPED.sub(r'\1:*', proxy.told('show info typed'))
        assert info == TYPED_INFO, info
        lines = proxy.told('show stat -1 5 -1 typed').splitlines()
        for wanted in ('S.2.1.1.svname.1:KNS:str:one', f'S.2.1.73.addr.1:CGS:str:{server}', 'S.2.1.7.stot.1:MCP:u64:1',
                       'F.2.0.1.svname.1:KNS:str:FRONTEND', 'F.2.0.79.conn_tot.1:MCP:u64:2', 'S.2.1.19.act.1:SGP:u32:1'):
            assert wanted in lines, (wanted, lines)
        assert not [line for line in lines if line.startswith('B.')], lines
        for command in ('show info', 'show stat', 'show stat www 4 1', 'show stat 2 3 9'):
            typed = [line for line in proxy.told(f'{command} typed').splitlines() if line]
            said = json.loads(proxy.told(f'{command} json'))
            rows = [said] if command == 'show info' else said
            assert [typed_of(field) for row in rows for field in row] == [stable(line) for line in typed], (command, said)


def typed_of(field):
    """The typed line of a field of the JSON output."""
    head = f'{field["objType"][0]}.{field["proxyId"]}.{field["id"]}.' if 'objType' in field else ''
    tags = ''.join('a' if word == 'Avg' else word[0] for word in (field['tags'][name] for name in ('origin', 'nature', 'scope')))
    value = field['value']
    return stable(f'{head}{field["field"]["pos"]}.{field["field"]["name"]}.{field["processNum"]}:{tags}:{value["type"]}:{value["value"]}')


def stable(line):
    """A typed line, but for a value that differs from answer to answer."""
    return re.sub(r'(\.(?:Uptime|Uptime_sec|\w*[Rr]ate\w*)\.1:\w+:\w+):.*', r'\1:*', line)


def a_program_that_drains_is_stopping():
    """While a client stays, a program that was shut down says so by HAProxy's names, once more and to Prometheus; a report says how many
    the drain has closed."""
    with FarServer() as server, Watched(server.port, [TABLE, TRACK], '--drain', '2s', '--report', '10m') as proxy:
        _client, _far = server.joined(proxy)
        assert proxy.told('shutdown frontend www') == '\n'
        assert proxy.told('shutdown frontend www') == 'Frontend was already shut down.\n\n'
        assert proxy.info()['Stopping'] == '1' and proxy.stat()['FRONTEND']['status'] == 'STOP'
        assert proxy.metrics()['stickd_draining'] == 1
        status, _, said = proxy.ended()
        assert status == 0 and ' 1 closed by the drain' in said, (status, said)


TRIALS = [answers_are_those_of_haproxy, metrics_are_those_of_prometheus, requests_are_answered_in_http,
          lines_are_answered_in_words_of_haproxy, typed_answers_are_those_of_haproxy, a_program_that_drains_is_stopping]
