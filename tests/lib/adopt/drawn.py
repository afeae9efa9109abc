"""Configurations that are drawn, line by line. Many are none that HAProxy takes."""
import random

# Pieces of lines, of which files are drawn.
SOURCES = ['10.0.0.0/8', '127.0.0.1', '::1', '192.0.2.0/255.255.255.0', 'localhost', '::/0', '"10.1.1.1"', '-f none.list', '-m ip 10.0.0.1']
NUMBERS = ['gt 5', 'ge 10', '3:8', 'lt 2 gt 9', '-m int gt 4', '-m bool', '7', 'gt "3"', 'ge 1k', '']
FETCHES = ['sc0_conn_cur', 'sc_conn_rate(0)', 'sc0_conn_cur(tab)', 'sc_get_gpc0(1,tab)', 'src_conn_cur', 'src_get_gpc0(tab)', 'src_inc_gpc0',
           'sc0_http_req_rate', 'sc_get_gpc(0,1)', 'sc_gpc_rate(1,0)', 'sc3_conn_cur', 'fe_conn', 'sc0_inc_gpc0', 'dst_port', 'src_port',
           'req.len', 'nbsrv(be)', 'sc0_bytes_out_rate', 'sc1_clr_gpc0', 'sc0_trackers']
NAMES = ['good', 'bad', 'LOCALHOST', 'TRUE', 'HTTP', 'WAIT_END', 'none']
KEYS = ['src', 'src,ipmask(32,64)', 'src,ipmask(24)', 'int(1)', 'str(all of them)', 'dst', 'always_true', 'src table tab', 'src_port table tab']
ACTIONS = ['accept', 'reject', 'silent-drop', 'track-sc0 KEY', 'track-sc1 KEY', 'track-sc2 KEY', 'sc-inc-gpc0(0)', 'sc-inc-gpc(0,1)',
           'sc-set-gpt0(0) 1', 'sc-set-gpt(0,1) int(2)', 'set-var(sess.a) int(1)', 'expect-proxy layer4', 'set-src src']
OTHERS = ['option tcplog', 'log global', 'mode tcp', 'mode http', 'timeout client 1m', 'timeout server 5s', 'maxconn 100', 'balance source',
          'tcp-request inspect-delay 3s', 'filter trace', 'retries 3', 'backlog 99', 'option clitcpka', '# a comment', '', 'stats enable',
          'default-server inter 3s', 'timeout tunnel 1h', 'no log', 'disabled', 'unheard of', 'description "a b', '.if defined(X)', '.endif',
          'option tcpka', 'option srvtcpka', 'clitcpka-idle 30', 'srvtcpka-idle 90s', 'clitcpka-idle never', 'backlog 99999999999', 'maxconn 0',
          'maxconn 9999999999', 'nbthread 2', 'nbthread 4000', 'timeout client 0', 'timeout connect 25d', 'timeout server soon', 'timeout client-fin 2s',
          'stats socket /run/here.sock mode 660', 'stats socket /run/it.sock level user group staff', 'hard-stop-after 30m', 'maxconnrate 5',
          'tune.bufsize 99', 'option contstats', 'timeout queue 3s', 'retry-on none', 'default-server maxconn 7 send-proxy', 'no option clitcpka',
          'use_backend be', 'use_backend tab if { src 10.0.0.1 }', 'default_backend be', 'default_backend fe', 'acl good src 10.0.0.1 # comment \u00e9']
TABLES = ['type ip', 'type ipv6', 'type string len 20', 'type integer', 'size 100k', 'expire 30s', 'store conn_cur', 'store gpc0,conn_rate(10s)',
          'store gpc(2),gpc_rate(2,5s)', 'store http_req_rate(10s)', 'nopurge', 'peers mates', 'store gpt0, gpc1', 'type binary len 4', 'size 0']
BINDS = ['127.0.0.1:9 maxconn 3 backlog 5', '127.0.0.1:9 backlog 88888888888', ':8080', '*:8081', ':::8082 v4v6', '127.0.0.1:1,127.0.0.1:2', '127.0.0.1:5-9', 'unix@/x', '/run/x', '127.0.0.1:80 ssl crt x', ':70000', '[::1]:7', '127.0.0.1:9 accept-proxy', '[::1]:7 name x accept-proxy backlog 3']
SERVERS = ['127.0.0.1:1 check', '127.0.0.1', 'web:80', '::1:80', '127.0.0.1:2 send-proxy', '127.0.0.1:2 send-proxy-v2 check', 'web:80 tcp-ut 3s send-proxy', '127.0.0.1:+1', '/run/y', '127.0.0.1:3 disabled', '127.0.0.1:4 maxconn 9']


def draw_criterion(draw):
    if draw.random() < 0.4:
        return 'src ' + ' '.join(draw.sample(SOURCES, draw.randint(1, 3)))
    return draw.choice(FETCHES) + ' ' + draw.choice(NUMBERS)


def draw_condition(draw):
    terms = []
    for _ in range(draw.randint(1, 3)):
        term = draw.choice(NAMES) if draw.random() < 0.5 else '{ ' + draw_criterion(draw) + ' }'
        terms.append(draw.choice(['', '', '!', '! ', '!!']) + term + draw.choice(['', '', ' or', ' ||']))
    return draw.choice(['if ', 'if ', 'unless ']) + ' '.join(terms)


def draw_line(draw):
    kind = draw.random()
    if kind < 0.15:
        return 'acl ' + draw.choice(NAMES) + ' ' + draw_criterion(draw)
    if kind < 0.5:
        action = draw.choice(ACTIONS).replace('KEY', draw.choice(KEYS))
        condition = ' ' + draw_condition(draw) if draw.random() < 0.7 else ''
        return 'tcp-request ' + draw.choice(['connection', 'connection', 'session', 'content']) + ' ' + action + condition
    if kind < 0.6:
        return 'stick-table ' + ' '.join(draw.sample(TABLES, draw.randint(2, 6)))
    if kind < 0.68:
        return 'bind ' + draw.choice(BINDS)
    if kind < 0.76:
        return draw.choice(['server', 'server', 'dispatch']) + ' s' + str(draw.randint(1, 9)) + ' ' + draw.choice(SERVERS)
    return draw.choice(OTHERS)


def draw_file(draw):
    """The text of a file."""
    lines = []
    heads = ['global', 'defaults', 'defaults strict', 'frontend fe', 'frontend two', 'frontend tab from strict', 'backend be', 'backend tab',
             'backend fe', 'listen all', 'listen "odd name"', 'peers mates', 'resolvers r']
    for _ in range(draw.randint(1, 6)):
        lines.append(draw.choice(heads))
        lines += ['    ' + draw_line(draw) for _ in range(draw.randint(0, 9))]
    return '\n'.join(lines) + draw.choice(['', '\n', '\r\n'])


def drawn(seed, number):
    """A file of a seed, as bytes, and the options by which it is adopted."""
    draw = random.Random(f'{seed} {number}')
    text = draw_file(draw)
    options = draw.choice([[], ['--first-server']]) + draw.choice([[], *(['--frontend', name] for name in ('two', 'all'))])
    # One in seven isn't UTF-8 where it has a letter beyond ASCII.
    return text.encode('latin1' if number % 7 == 0 else 'utf-8'), options
