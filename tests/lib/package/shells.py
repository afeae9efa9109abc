"""The completions: that they are those of the help, and what each shell makes of them."""
import os
import pty
import subprocess
import threading
import time

from lib.package.base import PATIENCE, TOP, Made, content, folder, packaging, put, run, same
from lib.trials import wants

OF_BASH, OF_FISH, OF_ZSH = (os.path.join(TOP, 'packaging', 'completions', name)
                            for name in ('stickd.bash', 'stickd.fish', '_stickd'))
# Command lines, in a folder with one file, and all that is offered for the last word of each.
COMPLETED = {
    'stickd chec': ['check'],
    'stickd run --timeout-c': ['--timeout-client', '--timeout-connect'],
    'stickd run one-f': ['one-file.cfg'],
    'stickd check one-f': ['one-file.cfg'],
    'stickd run --socket one-f': ['one-file.cfg'],
    'stickd run --threads ': [],
    'stickd run --threads 4 --socket-group roo': ['root'],
    'stickd help rep': ['replay'],
    'stickd check --thr': [],
    'stickd run --no-such': [],
    'stickd no-such ': []}
# The same, and what at least is offered.
AT_LEAST = {
    'stickd ': ['check', 'replay', 'run', 'help'],
    'stickd -': ['-h', '--help', '-V', '--version'],
    'stickd check -': ['--all', '--explain', '--help', '-h'],
    'stickd replay --': ['--shards', '--purge', '--help']}
# Bash has the `=` as a word of its own.
SPLIT = {
    'stickd run --socket = one-f': ['one-file.cfg'],
    'stickd run --socket =': ['one-file.cfg'],
    'stickd run --socket-group = roo': ['root'],
    'stickd run --threads = one-f': [],
    'stickd run --threads =': []}
# Lines as they are typed, and as a tab leaves them.
TYPED = {
    'stickd chec': 'stickd check ',
    'stickd run --timeout-cl': 'stickd run --timeout-client=',
    'stickd run --timeout-c': 'stickd run --timeout-c',
    'stickd check --e': 'stickd check --explain ',
    'stickd run one-f': 'stickd run one-file.cfg ',
    'stickd run --socket one-f': 'stickd run --socket one-file.cfg ',
    'stickd run --socket=one-f': 'stickd run --socket=one-file.cfg ',
    'stickd run --threads ': 'stickd run --threads ',
    'stickd run --socket-group roo': 'stickd run --socket-group root ',
    'stickd help rep': 'stickd help replay ',
    'stickd no-such ': 'stickd no-such '}
CALL = 'source "$0"; COMP_WORDS=("$@"); COMP_CWORD=$(($# - 1)); _stickd; ((!${#COMPREPLY[@]})) || printf "%s\\n" "${COMPREPLY[@]}"'
# The key ^T completes, and writes to a file what then stands on the line, which is left empty.
ZSH_TELLS = ("autoload -U compinit; compinit -u -D; source %s; tell() { zle complete-word; print -r -- \"$BUFFER|\" >> $TOLD; BUFFER= }; "
             "zle -N tell; bindkey '^T' tell; setopt no_beep no_auto_menu; print -n > $TOLD\n")


def completions_are_those_of_the_help():
    """The files in the repository are those that the program's help makes."""
    said = packaging('completions.py', '--check', '--program', Made.program)[0]
    same('completions', said, 'the completions are those of the help: 3 files\n')


def room_of_a_shell():
    """A folder with one file, to be completed."""
    room = folder()
    put(os.path.join(room, 'one-file.cfg'), '')
    return room


def compare(offers, exact):
    """Compares what is offered for each line, by a function that answers it, with what is typed here."""
    for line, wanted in exact.items():
        same(f'offered for {line!r}', sorted(offers(line)), sorted(wanted))
    for line, wanted in AT_LEAST.items():
        same(f'not offered for {line!r}', sorted(set(wanted) - set(offers(line))), [])


def bash_completes():
    """By the function, called as bash calls it."""
    room = room_of_a_shell()
    same('complete -p', run('bash', '-c', f'source {OF_BASH}; complete -p stickd')[0], 'complete -F _stickd stickd\n')

    def offers(line):
        said, complaint = run('bash', '-c', CALL, OF_BASH, *line.split(' '), cwd=room)
        same('complaint', complaint, '')
        return said.splitlines()

    compare(offers, {**COMPLETED, **SPLIT})


def fish_completes():
    """By fish's own command that completes a line."""
    wants('fish')
    room = room_of_a_shell()

    def offers(line):
        said = run('fish', '--no-config', '-c', f"source {OF_FISH}; complete -C '{line}'", cwd=room,
                   env={**os.environ, 'HOME': room})[0]
        return [offer.split('\t')[0] for offer in said.splitlines()]

    compare(offers, {**COMPLETED, 'stickd run --socket=one-f': ['--socket=one-file.cfg']})


def told(path, until, shell):
    """The lines that zsh has told, once there are as many as that, and it has begun."""
    ends = time.monotonic() + PATIENCE
    while not os.path.exists(path) or len(content(path).splitlines()) < until:
        assert shell.poll() is None, 'zsh has ended'
        assert time.monotonic() < ends, f'zsh has not told line {until}'
        time.sleep(0.02)
    return [line[:-1] for line in content(path).decode().splitlines()]


def drain(terminal):
    """Reads what a terminal shows to its end, so that nobody waits for it."""
    try:
        while os.read(terminal, 65536):
            pass
    except OSError:
        pass


def zsh_completes():
    """In a terminal, by what stands on the line behind a tab."""
    wants('zsh')
    room, path, (ours, its) = room_of_a_shell(), os.path.join(folder(), 'told'), pty.openpty()
    shell = subprocess.Popen(['zsh', '-f', '-i'], stdin=its, stdout=its, stderr=its, cwd=room, start_new_session=True,
                             env={**os.environ, 'HOME': room, 'TERM': 'dumb', 'TOLD': path})
    os.close(its)
    reader = threading.Thread(target=drain, args=(ours,))
    reader.start()
    try:
        os.write(ours, (ZSH_TELLS % OF_ZSH).encode())
        told(path, 0, shell)
        for number, line in enumerate(TYPED, 1):
            os.write(ours, f'{line}\x14'.encode())
            told(path, number, shell)
        same('completed', told(path, len(TYPED), shell), list(TYPED.values()))
    finally:
        shell.kill()
        shell.wait()
        reader.join()
        os.close(ours)


TRIALS = [completions_are_those_of_the_help, bash_completes, fish_completes, zsh_completes]
