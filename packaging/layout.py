"""What a package of stickd is made of: where each file lies, its mode, and what is in it. packaging/deb and packaging/install
both ask here, so that they install the same."""
import gzip
import os
import re
import subprocess
from typing import NamedTuple

TOP = os.path.dirname(os.path.dirname(os.path.abspath(__file__)))
BUILT = os.path.join(TOP, 'crates', 'stickd', 'out', 'stickd')
CONFIGURATION = 'etc/stickd/stickd.cfg'
# Where the program lies below a prefix, which a launcher starts.
PROGRAM = 'lib/stickd/stickd'
# What the sources name, and what stands in its place once it is installed.
PROGRAM_OF_UNIT = '/usr/local/bin/stickd'
EXAMPLE = 'examples/both-families.cfg'
# What other programs read of it, below its own folder of share/. A file of theirs may name it there, as it may not in share/doc.
OF_MONITORS = ('prometheus/stickd.rules.yml', 'grafana/stickd.json')
# Where zsh looks for the completions of a distribution's packages, and of all others.
OF_A_DISTRIBUTION, OF_OTHERS = 'vendor-completions', 'site-functions'


class Fault(Exception):
    """Why nothing can be packaged, in words for whoever called."""


class File(NamedTuple):
    """A file below the root of a system. One that is kept is the operator's: it is never written over, nor removed."""
    path: str
    mode: int
    content: bytes
    is_kept: bool = False


def place(root, file):
    """Where a file lies below a folder that stands for the root: never elsewhere, whatever its path begins with."""
    return os.path.join(root, file.path.lstrip('/'))


class Program(NamedTuple):
    """A built program, and the version that it tells."""
    path: str
    version: str
    content: bytes


def built_program(path=None):
    """The program at a path, or the one that a build leaves, if it is one and runs."""
    at = path or BUILT
    if not os.path.isfile(at):
        raise Fault(f'there is no program at {at}: (cd crates/stickd && rt run -- --version) builds one, or --program PATH '
                    'names another' if path is None else f'there is no program at {at}')
    at = os.path.abspath(at)
    try:
        said = subprocess.run([at, '--version'], stdout=subprocess.PIPE, stderr=subprocess.PIPE, stdin=subprocess.DEVNULL,
                              timeout=20)
    except (OSError, subprocess.TimeoutExpired) as error:
        raise Fault(f'{at} does not run: {error}') from error
    version = re.fullmatch(rb'stickd ([0-9][0-9.]*)\n', said.stdout)
    if said.returncode != 0 or version is None:
        raise Fault(f'{at} is not stickd: --version has status {said.returncode} and says {said.stdout[:80]!r}')
    with open(at, 'rb') as file:
        return Program(at, version[1].decode(), file.read())


def source(*parts):
    """A file of the repository."""
    with open(os.path.join(TOP, *parts), 'rb') as file:
        return file.read()


def packed(content):
    """A document as packages have it: the same bytes whenever it is packed."""
    return gzip.compress(content, 9, mtime=0)


def replaced(path, old, new):
    """A file of the repository with other words for some that have to be there."""
    content = source(path)
    if old.encode() not in content:
        raise Fault(f'{path} does not have {old!r}')
    return content.replace(old.encode(), new.encode())


def documents():
    """The name and content of each example."""
    for name in sorted(os.listdir(os.path.join(TOP, 'examples'))):
        if name.endswith(('.cfg', '.script')):
            yield name, source('examples', name)


def files(prefix, program, zsh_folder):
    """What is installed below a prefix, as /usr, or nothing for the root, and in /etc: each file once."""
    below = f'{prefix}/'.lstrip('/')
    share, documented = f'{below}share', f'{below}share/doc/stickd'
    yield File(f'{below}bin/stickd', 0o755, source('packaging', 'launcher'))
    yield File(f'{below}{PROGRAM}', 0o755, program)
    yield File(f'{share}/man/man1/stickd.1.gz', 0o644, packed(source('man', 'stickd.1')))
    unit = replaced('examples/stickd.service', PROGRAM_OF_UNIT, f'{prefix}/bin/stickd')
    yield File(f'{below}lib/systemd/system/stickd.service', 0o644, unit)
    yield File(f'{below}lib/systemd/system/stickd.socket', 0o644, source('examples', 'stickd.socket'))
    yield File(CONFIGURATION, 0o644, replaced(EXAMPLE, EXAMPLE, f'/{CONFIGURATION}'), is_kept=True)
    yield File(f'{share}/bash-completion/completions/stickd', 0o644, source('packaging', 'completions', 'stickd.bash'))
    yield File(f'{share}/zsh/{zsh_folder}/_stickd', 0o644, source('packaging', 'completions', '_stickd'))
    yield File(f'{share}/fish/vendor_completions.d/stickd.fish', 0o644, source('packaging', 'completions', 'stickd.fish'))
    yield File(f'{documented}/copyright', 0o644, source('packaging', 'debian', 'copyright'))
    yield File(f'{documented}/changelog.gz', 0o644, packed(source('packaging', 'debian', 'changelog')))
    for name in OF_MONITORS:
        yield File(f'{share}/stickd/{name}', 0o644, source('packaging', *name.split('/')))
    for name, content in documents():
        yield File(f'{documented}/examples/{name}', 0o644, content)
