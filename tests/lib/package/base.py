"""What the trials of tests/package share: the program and its package, folders, and what commands answer."""
import os
import shutil
import subprocess
import sys
import tempfile

TOP = os.path.dirname(os.path.dirname(os.path.dirname(os.path.dirname(os.path.abspath(__file__)))))
# The seconds after which whatever is waited for has failed: many, as lintian took half a minute on a busy machine.
PATIENCE = 120


class Made:
    """What all trials use: the program, its version, and a package of it."""
    program = os.path.join(TOP, 'crates', 'stickd', 'out', 'stickd')
    version, package, room = '', '', ''


def folder():
    """A folder of one's own, which others may enter."""
    path = tempfile.mkdtemp(dir=Made.room)
    os.chmod(path, 0o755)
    return path


def same(what, found, wanted):
    assert found == wanted, f'{what}: {found!r}, and wanted is {wanted!r}'


def run(*words, status=0, **more):
    """What a command writes to standard output, and to standard error, once it ends with a status."""
    ended = subprocess.run(words, stdin=subprocess.DEVNULL, stdout=subprocess.PIPE, stderr=subprocess.PIPE, text=True,
                           timeout=PATIENCE, **more)
    assert ended.returncode == status, f'{words}: status {ended.returncode}\n{ended.stdout}{ended.stderr}'
    return ended.stdout, ended.stderr


def content(*parts):
    with open(os.path.join(*parts), 'rb') as file:
        return file.read()


def put(path, text):
    with open(path, 'w', encoding='utf-8') as file:
        file.write(text)


def copy_of_sources():
    """A folder with what packages are made of, as it stands, and with times of its own."""
    top = os.path.join(folder(), 'sources')
    for part in ('packaging', 'examples', 'man'):
        shutil.copytree(os.path.join(TOP, part), os.path.join(top, part), copy_function=shutil.copy,
                        ignore=shutil.ignore_patterns('out', '__pycache__'))
    return top


def packaging(command, *words, top=TOP, **more):
    """What a command of packaging/ says, of the sources at a folder and by the Python that runs this."""
    return run(sys.executable, os.path.join(top, 'packaging', command), *words, **more)


def make_package(output, **more):
    """A package of the program."""
    said, _ = packaging('deb', '--program', Made.program, '--output', output, **more)
    path = said.strip()
    assert os.path.dirname(path) == output and os.path.isfile(path), said
    return path
