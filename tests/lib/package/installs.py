"""Packages, and what is installed and removed."""
import gzip
import os
import re
import stat
import time

from lib.package.base import TOP, Made, content, copy_of_sources, folder, make_package, packaging, put, run, same
from lib.package.running import CONFIGURATION, answers, serves_one, unit_of
from lib.trials import NotMade, wants

EXAMPLES = [name for name in sorted(os.listdir(os.path.join(TOP, 'examples'))) if name.endswith(('.cfg', '.script'))]
# What is installed, by hand: each file below the prefix and its mode; and where zsh looks, by who installs.
BELOW_PREFIX = {
    'bin/stickd': 0o755,
    'lib/stickd/stickd': 0o755,
    'lib/systemd/system/stickd.service': 0o644,
    'lib/systemd/system/stickd.socket': 0o644,
    'share/man/man1/stickd.1.gz': 0o644,
    'share/bash-completion/completions/stickd': 0o644,
    'share/fish/vendor_completions.d/stickd.fish': 0o644,
    'share/stickd/prometheus/stickd.rules.yml': 0o644,
    'share/stickd/grafana/stickd.json': 0o644,
    'share/doc/stickd/copyright': 0o644,
    'share/doc/stickd/changelog.gz': 0o644,
    **{f'share/doc/stickd/examples/{name}': 0o644 for name in EXAMPLES}}
ZSH_OF_PACKAGES, ZSH_OF_OTHERS = 'share/zsh/vendor-completions/_stickd', 'share/zsh/site-functions/_stickd'


def files_below(root):
    """Each file below a folder, with its mode; dpkg's own are left out."""
    found = {}
    for at, _, names in os.walk(root):
        for name in names:
            path = os.path.join(at, name)
            if not os.path.relpath(path, root).startswith('var/lib/dpkg/'):
                found[os.path.relpath(path, root)] = stat.S_IMODE(os.lstat(path).st_mode)
    return found


def installed_files(prefix, zsh):
    """What has to lie below a root, for a prefix without a `/` before it."""
    return {CONFIGURATION: 0o644, **{os.path.join(prefix, path): mode for path, mode in {**BELOW_PREFIX, zsh: 0o644}.items()}}


def looks_right(root, prefix, zsh):
    """Sees that the files are there, with their modes and what is in them, and that all may enter the folders."""
    same('files', files_below(root), installed_files(prefix, zsh))
    for at, names, _ in os.walk(root):
        names[:] = [name for name in names if name != 'var']
        for name in names:
            same(name, stat.S_IMODE(os.stat(os.path.join(at, name)).st_mode), 0o755)
    share, sources = os.path.join(root, prefix, 'share'), os.path.join(TOP, 'packaging')
    for path, source in [('bash-completion/completions/stickd', 'completions/stickd.bash'), (zsh[6:], 'completions/_stickd'),
                         ('fish/vendor_completions.d/stickd.fish', 'completions/stickd.fish'),
                         ('stickd/prometheus/stickd.rules.yml', 'prometheus/stickd.rules.yml'),
                         ('stickd/grafana/stickd.json', 'grafana/stickd.json'), ('doc/stickd/copyright', 'debian/copyright')]:
        same(path, content(share, path), content(sources, source))
    same('socket unit', content(root, prefix, 'lib/systemd/system/stickd.socket'), content(TOP, 'examples', 'stickd.socket'))
    same('manual', gzip.decompress(content(share, 'man/man1/stickd.1.gz')), content(TOP, 'man', 'stickd.1'))
    same('changelog', gzip.decompress(content(share, 'doc/stickd/changelog.gz')), content(sources, 'debian', 'changelog'))
    for name in EXAMPLES:
        same(name, content(share, 'doc/stickd/examples', name), content(TOP, 'examples', name))


def the_package_says_what_it_is():
    """The fields of the package, its configuration, and the sums of its files."""
    wants('dpkg-deb')
    fields = ['Package', 'Version', 'Architecture', 'Depends', 'Maintainer', 'Section', 'Priority']
    said = dict(line.split(': ', 1) for line in run('dpkg-deb', '-f', Made.package, *fields)[0].splitlines())
    same('name', said['Package'], 'stickd')
    same('version', said['Version'], Made.version)
    same('architecture', said['Architecture'], run('dpkg', '--print-architecture')[0].strip())
    assert re.fullmatch(r'libc6 \(>= 2\.[0-9]+\)(, libgcc-s1)?', said['Depends']), said['Depends']
    room = folder()
    run('dpkg-deb', '-R', Made.package, room)
    same('configurations', content(room, 'DEBIAN', 'conffiles'), f'/{CONFIGURATION}\n'.encode())
    run('md5sum', '--check', '--strict', 'DEBIAN/md5sums', cwd=room)
    sums = {line.split('  ', 1)[1] for line in content(room, 'DEBIAN', 'md5sums').decode().splitlines()}
    same('files with sums', sums, set(installed_files('usr', ZSH_OF_PACKAGES)) - {CONFIGURATION})
    listed = run('dpkg-deb', '-c', Made.package)[0]
    same('owners', {line.split()[1] for line in listed.splitlines()}, {'root/root'})


def two_packages_are_the_same():
    """The same bytes by other sources of the same words, with other modes, another mask, zone and language, a second later; others
    at another time, which is then that of each file."""
    wants('dpkg-deb')
    made = os.path.getmtime(Made.package)
    top = copy_of_sources()
    for at, _, names in os.walk(top):
        for name in names:
            os.chmod(os.path.join(at, name), 0o700)
    while int(time.time()) <= int(made):
        time.sleep(0.05)
    strange = {**os.environ, 'TZ': 'Asia/Tokyo', 'LC_ALL': 'C.UTF-8'}
    strange.pop('SOURCE_DATE_EPOCH', None)
    again = make_package(folder(), top=top, umask=0o077, env=strange)
    assert content(again) == content(Made.package), 'two packages of the same sources differ'
    then = make_package(folder(), top=top, env={**strange, 'SOURCE_DATE_EPOCH': '1000000000'})
    listed = run('dpkg-deb', '-c', then, env={**os.environ, 'TZ': 'UTC'})[0].splitlines()
    same('times', {' '.join(line.split()[3:5]) for line in listed}, {'2001-09-09 01:46'})


def dpkg(root, *words):
    """dpkg below a folder that stands for the root, where the machine's C library counts as installed."""
    return run('dpkg', f'--root={root}', '--force-script-chrootless', f'--log={root}/var/lib/dpkg/log', *words,
               env={**os.environ, 'DEBIAN_FRONTEND': 'noninteractive'})[0]


def new_root():
    """A folder in which dpkg has nothing but the C library."""
    root = folder()
    for name in ('info', 'updates', 'triggers'):
        os.makedirs(os.path.join(root, 'var', 'lib', 'dpkg', name))
    known = run('dpkg-query', '-W', '-f', 'Package: ${Package}\\nStatus: ${Status}\\nVersion: ${Version}\\n'
                'Architecture: ${Architecture}\\nMaintainer: none\\nDescription: none\\n\\n', 'libc6', 'libgcc-s1')[0]
    put(os.path.join(root, 'var', 'lib', 'dpkg', 'status'), known)
    return root


def a_package_is_installed_and_goes():
    """By dpkg, where root runs this: it is started, what the operator wrote stays, and in the end nothing else does."""
    wants('dpkg')
    if os.geteuid() != 0:
        raise NotMade('only root may install by dpkg')
    root = new_root()
    dpkg(root, '-i', Made.package)
    looks_right(root, 'usr', ZSH_OF_PACKAGES)
    answers(root, 'usr')
    same('dpkg --verify', dpkg(root, '--verify', 'stickd'), '')
    serves_one(root, 'usr')
    mine = content(root, CONFIGURATION)
    dpkg(root, '-i', Made.package)
    same('the operator\'s configuration', content(root, CONFIGURATION), mine)
    enabled = 'etc/systemd/system/multi-user.target.wants/stickd.service'
    os.makedirs(os.path.join(root, os.path.dirname(enabled)))
    os.symlink('/usr/lib/systemd/system/stickd.service', os.path.join(root, enabled))
    dpkg(root, '-r', 'stickd')
    same('left by -r', set(files_below(root)), {CONFIGURATION, enabled})
    same('the operator\'s configuration', content(root, CONFIGURATION), mine)
    same('folders', sorted(os.listdir(root)), ['etc', 'var'])
    dpkg(root, '-P', 'stickd')
    same('left by -P', files_below(root), {})
    same('folders of the configuration', os.path.exists(os.path.join(root, 'etc', 'stickd')), False)


# What the package has systemd do: the script and its words, and what it calls.
CALLS = [
    ('postinst configure', ['systemctl --system daemon-reload']),
    ('postinst configure 0.0.9', ['systemctl --system daemon-reload', 'deb-systemd-invoke try-restart stickd.service']),
    ('postinst abort-upgrade 0.0.9', []),
    ('prerm remove', ['deb-systemd-invoke stop stickd.socket stickd.service']),
    ('prerm upgrade 0.0.9', []),
    ('postrm remove', ['systemctl --system daemon-reload']),
    ('postrm purge', []),
    ('postrm upgrade 0.0.9', [])]


def the_scripts_call_systemd_where_it_runs():
    """By commands that stand for systemd's, which fail besides; and nothing where systemd doesn't run, or below another root."""
    room = folder()
    runs, calls = os.path.join(room, 'runs'), os.path.join(room, 'calls')
    for name in ('systemctl', 'deb-systemd-invoke'):
        put(os.path.join(room, name), f'#!/bin/sh\necho "${{0##*/}} $*" >> {calls}\nexit 1\n')
        os.chmod(os.path.join(room, name), 0o755)
    for is_running, root in [(False, ''), (True, ''), (True, room)]:
        if is_running:
            os.makedirs(runs, exist_ok=True)
        for words, wanted in CALLS:
            name, *rest = words.split()
            script = content(TOP, 'packaging', 'debian', name).decode()
            same('systemd is looked for', '/run/systemd/system' in script, True)
            put(os.path.join(room, name), script.replace('/run/systemd/system', runs))
            put(calls, '')
            # Without a root of its own, a purge removes a link of this machine.
            if root or words != 'postrm purge':
                run('sh', os.path.join(room, name), *rest, env={'PATH': f'{room}:/usr/bin:/bin', 'DPKG_ROOT': root})
                same(words, content(calls).decode().splitlines(), wanted if is_running and not root else [])


def a_package_is_unpacked():
    """By dpkg-deb alone, as anybody may: the same files, which run."""
    wants('dpkg-deb')
    root = folder()
    run('dpkg-deb', '-x', Made.package, root)
    looks_right(root, 'usr', ZSH_OF_PACKAGES)
    answers(root, 'usr')
    serves_one(root, 'usr')


def install(root, *words, **more):
    return packaging('install', '--destdir', root, *words, **more)[0]


def it_is_installed_without_dpkg_and_goes():
    """By packaging/install, with a mask that keeps others out: started, twice installed, and removed."""
    root = folder()
    install(root, '--program', Made.program, umask=0o077)
    looks_right(root, 'usr/local', ZSH_OF_OTHERS)
    same('the launcher', content(root, 'usr/local/bin/stickd'), content(TOP, 'packaging', 'launcher'))
    same('the program', content(root, 'usr/local/lib/stickd/stickd'), content(Made.program))
    answers(root, 'usr/local')
    serves_one(root, 'usr/local')
    mine = content(root, CONFIGURATION)
    said = install(root, '--program', Made.program)
    assert f'{root}/{CONFIGURATION} is there, and stays\n' in said, said
    same('the operator\'s configuration', content(root, CONFIGURATION), mine)
    neighbour = os.path.join(root, 'usr/local/bin/other')
    put(neighbour, 'of another package')
    install(root, '--remove')
    same('left', set(files_below(root)), {CONFIGURATION, 'usr/local/bin/other'})
    same('the operator\'s configuration', content(root, CONFIGURATION), mine)
    for own in ('share/doc/stickd', 'share/stickd', 'lib/stickd'):
        same(f'folder {own}', os.path.exists(os.path.join(root, 'usr/local', own)), False)


def it_is_installed_below_any_prefix():
    """The unit names the program where it lies; nothing lies outside."""
    for prefix, below in [('/opt/stickd-1.0', 'opt/stickd-1.0'), ('/usr/', 'usr'), ('/', '')]:
        root = folder()
        install(root, '--prefix', prefix, '--program', Made.program)
        looks_right(root, below, ZSH_OF_OTHERS)
        unit_of(root, below)
        install(root, '--prefix', prefix, '--remove')
        same('left', set(files_below(root)), {CONFIGURATION})


def lintian_finds_no_error():
    """Warnings and below are shown, and no fault."""
    wants('lintian')
    said, complaint = run('lintian', '--fail-on', 'error', Made.package)
    for line in (said + complaint).splitlines():
        if line.startswith(('W:', 'I:')):
            print(f'package: lintian: {line}')


TRIALS = [two_packages_are_the_same, a_package_is_installed_and_goes, a_package_is_unpacked, the_package_says_what_it_is,
          the_scripts_call_systemd_where_it_runs, it_is_installed_without_dpkg_and_goes, it_is_installed_below_any_prefix,
          lintian_finds_no_error]
