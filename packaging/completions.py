#!/usr/bin/env python3
"""Writes the completions of stickd for bash, zsh and fish, packaging/completions/*, from what the program's own help says of its
commands and options. With --check it writes nothing, and says how the files differ from the help (status 1 where they do)."""
import argparse
import difflib
import os
import re
import subprocess
import sys
from typing import NamedTuple

from layout import Fault, built_program

FOLDER = os.path.join(os.path.dirname(os.path.abspath(__file__)), 'completions')
WRITTEN = 'packaging/completions.py wrote this from the help of stickd: edit it there.'
HEADING = re.compile(r'(Commands|Arguments|Options):$')
# `  -h, --help     Print help`, `      --socket <PATH>  The Unix socket ..`
OPTION = re.compile(r' +(?:(-\w), )?(--[\w-]+)(?: <([^>]+)>)?  +(\S.*)$')
ARGUMENT = re.compile(r'  [<\[]([A-Z-]+)[>\]](\.\.\.)?  +(\S.*)$')
COMMAND = re.compile(r'  ([\w-]+)  +(\S.*)$')
LINES = {'Commands': COMMAND, 'Arguments': ARGUMENT, 'Options': OPTION}
# What the value of an option, or an argument, of such a name is taken from. Of all others nothing is known.
FILES, GROUPS, COMMANDS, FORMS = 'files', 'groups', 'commands', 'forms'
KINDS = {'FILE': FILES, 'PATH': FILES, 'PATH[,OPTION]': FILES, 'GROUP': GROUPS, 'COMMAND': COMMANDS, 'FORM': FORMS}
EXPORTS = 'csv json nft ipset'


class Option(NamedTuple):
    """An option: `-h` or nothing, `--help`, the name of its value or nothing, and what it does."""
    short: str
    long: str
    value: str
    text: str

    def names(self):
        return [name for name in (self.short, self.long) if name]


class Argument(NamedTuple):
    """What stands without an option. The name of one that may stand several times ends in `...`."""
    name: str
    text: str


class Command(NamedTuple):
    """A command, or the program itself."""
    name: str
    text: str
    options: list
    arguments: list


def entries(text):
    """The lines of the sections of a help, each with its section's name and its parts. Every line is read, or it is a fault."""
    section = None
    for line in text.splitlines():
        heading = HEADING.match(line)
        if heading:
            section = heading[1]
        elif not line:
            section = None
        elif section:
            found = LINES[section].match(line)
            if not found:
                raise Fault(f'this line of the help is none of {section.lower()}: {line!r}')
            yield section, found.groups(default='')


def help_of(program, *words):
    """What the program says of itself, or of a command."""
    said = subprocess.run([program, *words, '--help'], stdout=subprocess.PIPE, stdin=subprocess.DEVNULL, text=True, timeout=20)
    if said.returncode != 0 or not said.stdout:
        raise Fault(f'{program} {" ".join(words)} --help: status {said.returncode}')
    return list(entries(said.stdout))


def command_of(name, text, found):
    """A command by the entries of its help."""
    options = [Option(*parts) for section, parts in found if section == 'Options']
    if not options:
        raise Fault(f'the help of {name} has no options')
    arguments = [Argument(parts[0] + parts[1], parts[2]) for section, parts in found if section == 'Arguments']
    return Command(name, text, options, arguments)


def read_program(program):
    """The program itself, and its commands."""
    found = help_of(program)
    commands = []
    for name, text in [parts for section, parts in found if section == 'Commands']:
        if name == 'help':
            commands.append(Command(name, text, [], [Argument('COMMAND', 'The command')]))
        else:
            commands.append(command_of(name, text, help_of(program, name)))
    if not commands:
        raise Fault('the help has no commands')
    return command_of('stickd', '', found), commands


def option_names(options):
    return ' '.join(name for option in options for name in option.names())


def bash_kind(kind, names):
    """The statements that answer words of a kind, in the place of options."""
    return {FILES: ['compopt -o filenames 2>/dev/null', 'choices=(-f)'],
            GROUPS: ['choices=(-g)'],
            COMMANDS: [f'choices=(-W "{names}")'],
            FORMS: [f'choices=(-W "{EXPORTS}")']}.get(kind, ['return'])


def bash_values(commands):
    """The choices of values, for all options that have them of one kind."""
    kinds = {}
    for command in commands:
        for option in command.options:
            if option.value:
                kinds.setdefault(KINDS.get(option.value), []).append(f'"{command.name} {option.long}"')
    for kind, options in kinds.items():
        yield f'        {" | ".join(options)})'
        yield from [f'            {line}' for line in bash_kind(kind, '')]
        yield '            ;;'


def bash_commands(commands, names):
    """Of each command its options, and what its argument is taken from."""
    for command in commands:
        if command.options:
            yield f'        "{command.name} -")'
            yield f'            choices=(-W "{option_names(command.options)}")'
            yield '            ;;'
        for argument in command.arguments:
            yield f'        "{command.name} "*)'
            yield from [f'            {line}' for line in bash_kind(KINDS.get(argument.name), names)]
            yield '            ;;'


def bash(program, commands):
    """The file for bash."""
    names = ' '.join(command.name for command in commands)
    return '\n'.join([
        f'# Completion of stickd for bash. {WRITTEN}',
        '',
        '_stickd() {',
        '    local word=${COMP_WORDS[COMP_CWORD]} before=${COMP_WORDS[COMP_CWORD - 1]} command=${COMP_WORDS[1]} choices=()',
        '    COMPREPLY=()',
        "    # In `--option=value` the `=` is a word of its own.",
        "    if [[ $word == '=' ]]; then",
        '        word=',
        "    elif [[ $before == '=' ]]; then",
        '        before=${COMP_WORDS[COMP_CWORD - 2]}',
        '    fi',
        '    # What the option before wants; else what the command has.',
        '    case "$command $before" in',
        *bash_values(commands),
        '    esac',
        '    if ((COMP_CWORD == 1)); then',
        f'        choices=(-W "{names} {option_names(program.options)}")',
        '    fi',
        '    ((${#choices[@]})) || case "$command ${word:0:1}" in',
        *bash_commands(commands, names),
        '    esac',
        '    ((${#choices[@]})) && mapfile -t COMPREPLY < <(compgen "${choices[@]}" -- "$word")',
        '}',
        'complete -F _stickd stickd',
        ''])


def quoted(text):
    """A text between the quotes of zsh, where nothing but a quote is special."""
    return "'" + text.replace("'", "'\\''") + "'"


def told(text):
    """What stands in the brackets of an option."""
    return re.sub(r'([\[\]:\\])', r'\\\1', text)


def zsh_option(option):
    """One option for `_arguments`. Help and version stand alone; of one that has a value, the help doesn't say that it
    stands once."""
    text = f'[{told(option.text)}]'
    if not option.value:
        alone = '(- *)' if option.short else ''
        names = f"{{{','.join(option.names())}}}" if option.short else option.long
        return f"'{alone}'{names}{quoted(text)}" if alone else quoted(names + text)
    action = {FILES: '_files', GROUPS: '_groups', FORMS: f'({EXPORTS})'}.get(KINDS.get(option.value), ' ')
    return quoted(f'*{option.long}={text}:{told(option.value)}:{action}')


def zsh_command(command):
    """The options and arguments of a command."""
    words = [zsh_option(option) for option in command.options]
    for argument in command.arguments:
        action = {FILES: '_files', COMMANDS: '_stickd_commands'}.get(KINDS.get(argument.name), ' ')
        words.append(quoted(f'{"*" if argument.name.endswith("...") else ""}:{argument.name}:{action}'))
    return ' \\\n                '.join(['_arguments', *words])


def zsh(program, commands):
    """The file for zsh, which is called as a function of its name."""
    lines = [
        '#compdef stickd',
        f'# Completion of stickd for zsh. {WRITTEN}',
        '',
        '_stickd_commands() {',
        '    local -a commands=(',
        *[f'        {quoted(command.name + ":" + command.text)}' for command in commands],
        '    )',
        '    _describe -t commands command commands',
        '}',
        '',
        '_stickd() {',
        '    local curcontext=$curcontext state line',
        '    typeset -A opt_args',
        '    _arguments -C \\',
        *[f'        {zsh_option(option)} \\' for option in program.options],
        "        '1:command:_stickd_commands' \\",
        "        '*::argument:->rest' && return",
        '    [[ $state == rest ]] || return',
        '    case $words[1] in']
    for command in commands:
        lines += [f'        {command.name})', f'            {zsh_command(command)}', '            ;;']
    return '\n'.join([
        *lines,
        '    esac',
        '}',
        '',
        '# The first call reads this file as the function itself; `source` only defines it.',
        'if [[ $funcstack[1] == _stickd ]]; then',
        '    _stickd "$@"',
        'else',
        '    compdef _stickd stickd',
        'fi',
        ''])


def fish_text(text):
    return "'" + text.replace('\\', '\\\\').replace("'", "\\'") + "'"


def fish_option(condition, option):
    """One option, where a condition holds."""
    words = ['complete -c stickd', f'-n {condition}']
    if option.short:
        words.append(f'-s {option.short[1:]}')
    words.append(f'-l {option.long[2:]}')
    if option.value:
        words.append({FILES: '-r -F', GROUPS: "-x -a '(__fish_complete_groups)'", FORMS: f"-x -a '{EXPORTS}'"}.get(KINDS.get(option.value), '-x'))
    return ' '.join([*words, f'-d {fish_text(option.text)}'])


def fish(program, commands):
    """The file for fish."""
    lines = [
        f'# Completion of stickd for fish. {WRITTEN}',
        '',
        'function __stickd_at -d "Whether the command line is at a command, or at none yet"',
        '    set -l words (commandline -opc)',
        '    test "$words[2]" = "$argv[1]"',
        'end',
        '',
        'complete -c stickd -f',
        *[fish_option("'__stickd_at'", option) for option in program.options]]
    for command in commands:
        lines.append(f"complete -c stickd -n '__stickd_at' -a {command.name} -d {fish_text(command.text)}")
    for command in commands:
        at = f"'__stickd_at {command.name}'"
        lines += ['', *[fish_option(at, option) for option in command.options]]
        for argument in command.arguments:
            names = ' '.join(other.name for other in commands)
            action = {FILES: '-F', COMMANDS: f"-a '{names}'"}.get(KINDS.get(argument.name))
            lines += [f'complete -c stickd -n {at} {action}'] if action else []
    return '\n'.join([*lines, ''])


def written(program):
    """The name of each file, and what has to be in it."""
    read = read_program(program)
    return {'stickd.bash': bash(*read), '_stickd': zsh(*read), 'stickd.fish': fish(*read)}


def differences(name, wanted):
    """How a file differs from what has to be in it."""
    path = os.path.join(FOLDER, name)
    found = ''
    if os.path.exists(path):
        with open(path, encoding='utf-8') as file:
            found = file.read()
    return list(difflib.unified_diff(found.splitlines(), wanted.splitlines(), name, 'by the help', lineterm=''))


def main():
    reader = argparse.ArgumentParser(prog='packaging/completions.py', description=__doc__, allow_abbrev=False)
    reader.add_argument('--program', metavar='PATH', help='the built program [default: crates/stickd/out/stickd]')
    reader.add_argument('--check', action='store_true', help='compare, and write nothing')
    words = reader.parse_args()
    wanted = written(built_program(words.program).path)
    if words.check:
        wrong = [line for name, content in wanted.items() for line in differences(name, content)]
        print('\n'.join([*wrong, 'the completions differ from the help: packaging/completions.py writes them anew'])
              if wrong else f'the completions are those of the help: {len(wanted)} files')
        return 1 if wrong else 0
    for name, content in wanted.items():
        with open(os.path.join(FOLDER, name), 'w', encoding='utf-8') as file:
            file.write(content)
        print(os.path.join('packaging', 'completions', name))
    return 0


if __name__ == '__main__':
    try:
        sys.exit(main())
    except Fault as fault:
        sys.exit(f'packaging/completions.py: {fault}')
