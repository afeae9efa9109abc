"""Trials of `stickd ctl export`: a table's entries as CSV, as JSON, and as sets of addresses that `nft` and `ipset` take."""
import csv
import io
import json
import os
import re
import shutil
import subprocess
import tempfile

from lib.operations.base import OTHER, answers, asked, fill, running
from lib.operations.saving import said_by
from lib.proxy import PATIENCE
from lib.trials import NotMade, wants

HEADER = '# table: {}, type: {}, size:10, used:{}\n'
ADDRESSES = (HEADER.format('www', 'ipv6', 5)
             + '0x0: key=::ffff:192.0.2.1 use=0 exp=29999 gpc0=1\n'
             + '0x0: key=2001:db8::1 use=0 exp=999 gpc0=2\n'
             + '0x0: key=192.0.2.7 use=1 exp=0 gpc0=3\n'
             + '0x0: key=:: use=0 exp=100 gpc0=4\n'
             + '0x0: key=0x7f000001 use=0 exp=2147483647 gpc0=5\n\n')
LEFT_OUT = 'stickd: left out: 2 entries, whose keys are no addresses of hosts\n'
NFT = ('# These sets drop no packet. Rules that do, added once:\n'
       '#   add chain inet stickd input { type filter hook input priority -10; }\n'
       '#   add rule inet stickd input ip saddr @v4_www drop\n'
       '#   add rule inet stickd input ip6 saddr @v6_www drop\n'
       'add table inet stickd\n'
       'add set inet stickd v4_www { type ipv4_addr; flags timeout; }\n'
       'flush set inet stickd v4_www\n'
       'add element inet stickd v4_www { 192.0.2.1 timeout 29s }\n'
       'add element inet stickd v4_www { 192.0.2.7 }\n'
       'add set inet stickd v6_www { type ipv6_addr; flags timeout; }\n'
       'flush set inet stickd v6_www\n'
       'add element inet stickd v6_www { 2001:db8::1 timeout 1s }\n')
IPSET = ('create -exist v4_www hash:ip family inet timeout 0 maxelem 4294967295\n'
         'flush v4_www\n'
         'add -exist v4_www 192.0.2.1 timeout 29\n'
         'add -exist v4_www 192.0.2.7\n'
         'create -exist v6_www hash:ip family inet6 timeout 0 maxelem 4294967295\n'
         'flush v6_www\n'
         'add -exist v6_www 2001:db8::1 timeout 1\n')


def exported(listing, form, table='www'):
    """What a listing is exported as: the status, and what is written on standard output and standard error."""
    with said_by({f'show table {table}': listing}) as path:
        return asked(path, 'export', table, '--as', form)


def a_listing_becomes_sets():
    """IPv4 addresses stand in one set, also those that IPv6 keys map, and IPv6 ones in another; with the whole seconds that they have
    left, one at least, or for ever. What is no host's address is counted and left out. A table without entries has empty sets."""
    assert exported(ADDRESSES, 'nft') == (0, NFT, LEFT_OUT)
    assert exported(ADDRESSES, 'ipset') == (0, IPSET, LEFT_OUT)
    nothing = HEADER.format('www', 'ip', 0) + '\n'
    for form, whole in (('nft', NFT), ('ipset', IPSET)):
        made = ''.join(line for line in whole.splitlines(keepends=True) if not line.startswith(('add element', 'add -exist')))
        assert exported(nothing, form) == (0, made, ''), form


def names_become_names_of_sets():
    """A letter, a digit, - and . stay, and all else is an _ there."""
    _, written, _ = exported(HEADER.format('a:b_c-d.e9', 'ip', 0) + '\n', 'nft', 'a:b_c-d.e9')
    assert 'flush set inet stickd v4_a_b_c-d.e9\n' in written and 'a:b' not in written, written


def a_listing_becomes_csv():
    """A key with commas and quotes is one field, read back by another program; the heading has the names of a row."""
    names = (HEADER.format('names', 'string', 3)
             + '0x0: key=a,b"c use=0 exp=7 gpt[0]=1 conn_rate(10000)=2\n'
             + '0x0: key=" use=1 exp=0 gpt[0]=3 conn_rate(10000)=4\n'
             + '0x0: key=k=1 use=0 exp=0 gpt[0]=5 conn_rate(10000)=18446744073709551615\n\n')
    status, written, said = exported(names, 'csv', 'names')
    assert (status, said) == (0, '')
    assert written == ('key,use,exp,gpt[0],conn_rate(10000)\n"a,b""c",0,7,1,2\n"""",1,0,3,4\nk=1,0,0,5,18446744073709551615\n'), written
    assert [row[0] for row in csv.reader(io.StringIO(written))] == ['key', 'a,b"c', '"', 'k=1']
    assert exported(HEADER.format('names', 'string', 0) + '\n', 'csv', 'names') == (0, 'key,use,exp\n', '')


def filters_are_sent():
    """Of a running table, in every form, those entries alone that a filter takes. The JSON is that of `--json`."""
    with running(OTHER) as proxy:
        fill(proxy, 3)
        words = ('export', 'www', 'data.gpc0', 'gt', '1')
        rows = list(csv.DictReader(io.StringIO(answers(proxy.path, *words, '--as', 'csv'))))
        assert [(row['key'], row['gpc0']) for row in rows] == [('10.0.0.2', '2'), ('10.0.0.3', '3')], rows
        whole = json.loads(answers(proxy.path, *words, '--as', 'json'))
        assert [entry['gpc0'] for entry in whole[0]['entries']] == [2, 3], whole
        for form in 'nft', 'ipset':
            found = re.findall(r'10\.0\.0\.\d+', answers(proxy.path, '--as', form, *words[:2], ' '.join(words[2:])))
            assert found == ['10.0.0.2', '10.0.0.3'], found
        assert answers(proxy.path, 'set', 'table', 'other', 'key', 'a,b', 'data.gpc0', '1') == '\n'
        assert answers(proxy.path, 'export', 'other', '--as', 'csv') == 'key,use,exp,gpc0\n"a,b",0,0,1\n'


def what_can_not_be_exported_is_told():
    """No such table, no such datum, an answer that is cut, nobody there: nothing is written, and the status is 1."""
    with running() as proxy:
        assert asked(proxy.path, 'export', 'no', '--as', 'nft') == (1, '', "stickd: 'show table no' is answered 'No such table.'\n")
        said = "stickd: 'show table www data.gpc1 gt 0' is answered 'Data type not stored in this table.'\n"
        assert asked(proxy.path, 'export', 'www', 'data.gpc1', 'gt', '0', '--as', 'csv') == (1, '', said)
    with said_by({'show table cut': HEADER.format('cut', 'ip', 1)}) as path:
        assert asked(path, 'export', 'cut', '--as', 'csv') == (1, '', f"stickd: {path} was closed before the answer's end\n")
    assert asked(path, 'export', 'www', '--as', 'csv') == (1, '', f"stickd: {path} can't be reached: No such file or directory (os error 2)\n")


def tool(name):
    """Where a tool of the system's administrator lies."""
    return shutil.which(name, path=os.environ.get('PATH', '') + ':/usr/sbin:/sbin') or name


def alone(script, text):
    """What a script says in a network of its own, with a text in the file `$1`."""
    with tempfile.NamedTemporaryFile('w') as file:
        file.write(text)
        file.flush()
        return subprocess.run(['unshare', '-rn', 'sh', '-e', '-c', script, 'sh', file.name], capture_output=True, text=True,
                              timeout=PATIENCE, check=False)


def wants_a_network(script):
    """Where no network of one's own can be had, or the system has no such sets, the trial isn't made."""
    wants('unshare')
    done = alone(script, '')
    if done.returncode:
        raise NotMade(f'no sets in a network of its own: {done.stderr.strip()}')


def nft_takes_the_file():
    """`nft -f` takes it twice, and the sets then hold what the listing has. The rules of its comment are rules, and a file with a key
    less takes that out. A table without entries empties them."""
    if not os.path.exists(tool('nft')):
        raise NotMade('nft is not here (the Debian package nftables)')
    nft = tool('nft')
    wants_a_network(f'{nft} add table inet stickd')
    script = (f'{nft} -c -f "$1"; {nft} -f "$1"; {nft} -f "$1"; sed -n "s/^#   //p" "$1" > "$1.rules"; {nft} -f "$1.rules"; rm "$1.rules"; '
              f'{nft} -j list ruleset; grep -v "add element" "$1" | {nft} -f -; {nft} -j list ruleset')
    _, written, _ = exported(ADDRESSES, 'nft')
    done = alone(script, written)
    assert done.returncode == 0, done
    full, empty = (sets_of_nft(line) for line in done.stdout.splitlines())
    assert full == {'v4_www': {'192.0.2.1': 29, '192.0.2.7': None}, 'v6_www': {'2001:db8::1': 1}}, full
    assert empty == {'v4_www': {}, 'v6_www': {}}, empty


def sets_of_nft(listing):
    """The sets of a listing of nft's, each with its elements and their timeouts in seconds."""
    sets = [item['set'] for item in json.loads(listing)['nftables'] if 'set' in item]
    return {one['name']: dict((item['elem']['val'], item['elem'].get('timeout')) if isinstance(item, dict) else (item, None)
                              for item in one.get('elem', [])) for one in sets}


def ipset_takes_the_file():
    """`ipset restore` takes it twice, and the sets then hold what the listing has, with the seconds that are left."""
    if not os.path.exists(tool('ipset')):
        raise NotMade('ipset is not here (the Debian package ipset)')
    ipset = tool('ipset')
    wants_a_network(f'{ipset} list')
    _, written, _ = exported(ADDRESSES, 'ipset')
    done = alone(f'{ipset} restore < "$1"; {ipset} restore < "$1"; {ipset} save', written)
    assert done.returncode == 0, done
    found = {(name, key): int(left) for name, key, left in re.findall(r'^add (\S+) (\S+) timeout (\d+)$', done.stdout, re.MULTILINE)}
    assert set(found) == {('v4_www', '192.0.2.1'), ('v4_www', '192.0.2.7'), ('v6_www', '2001:db8::1')}, done.stdout
    assert 1 <= found['v4_www', '192.0.2.1'] <= 29 and found['v4_www', '192.0.2.7'] == 0, found


TRIALS = [a_listing_becomes_sets, names_become_names_of_sets, a_listing_becomes_csv, filters_are_sent, what_can_not_be_exported_is_told,
          nft_takes_the_file, ipset_takes_the_file]
