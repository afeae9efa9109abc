"""The alert rules of packaging/prometheus, and what is wrong with them and with their cases, by Prometheus' own tool."""
import collections
import os
import re
import subprocess
import tempfile

from lib.places import ROWS, TOP
from lib.trials import wants

RULES = os.path.join(TOP, 'packaging', 'prometheus', 'stickd.rules.yml')
CASES = os.path.join(TOP, 'tests', 'alert_cases', 'stickd.yml')
SECTION = 'Alerts and a dashboard'
# Where a package puts the rules.
INSTALLED = '/usr/share/stickd/prometheus/stickd.rules.yml'
EXPRESSION = re.compile(r'^        expr: (?:>-\n(?P<folded>(?:          .*\n)+)|(?P<plain>.*)\n)', re.M)
ANNOTATIONS = ('summary', 'description', 'runbook')
SEVERITIES = ('critical', 'warning', 'info')
# How long promtool may take, in seconds, on a busy machine.
PATIENCE = 120

# An alert: its name, its expression, and its block of the file.
Alert = collections.namedtuple('Alert', 'name expression block')


def read(path):
    with open(path, encoding='utf-8') as file:
        return file.read()


def alerts():
    """The alerts of the file. Only what stands there in the file's own form is found, so that the number of them is compared with what
    promtool finds."""
    for block in read(RULES).split('\n      - alert: ')[1:]:
        found = EXPRESSION.search(block)
        yield Alert(block.split('\n')[0], ' '.join((found['folded'] or found['plain']).split()), block)


def annotation(alert, name):
    """One of its texts, on one line."""
    found = re.search(rf'^          {name}: (?:>-\n)?((?:.*\n)(?:            .*\n)*)', alert.block + '\n', re.M)
    return ' '.join(found[1].split()) if found else ''


def promtool(*words):
    """What promtool says, and its status."""
    wants('promtool')
    done = subprocess.run(['promtool', *words], stdin=subprocess.DEVNULL, stdout=subprocess.PIPE, stderr=subprocess.STDOUT, text=True,
                          timeout=PATIENCE)
    return done.stdout, done.returncode


def unread_rules():
    """What promtool says of the rules, where it finds a fault or another number of them."""
    said, status = promtool('check', 'rules', RULES)
    if status != 0 or f'SUCCESS: {len(list(alerts()))} rules found' not in said:
        yield from said.splitlines()


def failed_cases():
    """The cases that the rules don't meet."""
    said, status = promtool('test', 'rules', CASES)
    if status != 0:
        yield from said.splitlines()


def said_of_other_rules(change):
    """What promtool says of the cases where each alert has another expression."""
    with tempfile.TemporaryDirectory(prefix='stickd-') as room:
        rules, cases = (os.path.join(room, name) for name in ('rules.yml', 'cases.yml'))
        named = '../../packaging/prometheus/stickd.rules.yml'
        for path, text in ((rules, change(read(RULES))), (cases, read(CASES).replace(named, rules))):
            with open(path, 'w', encoding='utf-8') as file:
                file.write(text)
        return promtool('test', 'rules', cases)[0]


def never(text):
    """The rules, none of which ever fires."""
    return EXPRESSION.sub('        expr: vector(0) > 1\n', text)


def always(text):
    """The rules, each of which fires at once and goes on."""
    return re.sub(r'^        for: .*\n', '', EXPRESSION.sub('        expr: vector(1)\n', text), flags=re.M)


def missing_cases():
    """The alerts that no case has fire, and those that no case has be quiet: found out by rules that never fire, and that always do."""
    for change, wanted, lacks in ((never, r'\{', 'fire'), (always, 'nil', 'be quiet')):
        said = said_of_other_rules(change)
        failed = set(re.findall(rf'expr: "ALERTS\{{alertname=\\"(\w+)\\".*\n +exp: {wanted}', said))
        yield from (f'no case has {alert.name} {lacks}' for alert in alerts() if alert.name not in failed)


def options_of_commands():
    """The options of each command, as its help has them."""
    parts = re.split(r'^== (\w+) --help\n', read(os.path.join(ROWS, 'help.runs')), flags=re.M)
    return {name: set(re.findall(r'(--[a-z][a-z0-9-]*)', text.split('\n== ')[0])) for name, text in zip(parts[1::2], parts[2::2])}


def wrong_commands(text, options):
    """The commands and options of a text that aren't there. What stands between backquotes may be a command; all else is of `run`."""
    for quoted in re.findall(r'`stickd ([^`]*)`', text):
        command = quoted.split()[0]
        if command not in options:
            yield f'there is no command stickd {command}'
        for option in set(re.findall(r'--[a-z][a-z0-9-]*', quoted)) - options.get(command, set()):
            yield f'stickd {command} has no option {option}'
    for option in set(re.findall(r'--[a-z][a-z0-9-]*', re.sub(r'`[^`]*`', '', text))) - options['run']:
        yield f'stickd run has no option {option}'


def anchors():
    """What a link may lead to in docs/OPERATING.md."""
    heads = re.findall(r'^##+ (.*)$', read(os.path.join(TOP, 'docs', 'OPERATING.md')), re.M)
    return {'docs/OPERATING.md#' + re.sub(r'[^\w -]', '', head.lower()).replace(' ', '-') for head in heads}


def wrong_texts():
    """What is wrong with the texts of alerts: those that lack one, a section or a command that isn't there, and what the page doesn't
    explain."""
    options, places = options_of_commands(), anchors()
    for alert in alerts():
        if not re.search(rf'^          severity: ({"|".join(SEVERITIES)})$', alert.block, re.M):
            yield f'{alert.name} has no severity'
        texts = {name: annotation(alert, name) for name in ANNOTATIONS}
        yield from (f'{alert.name} has no {name}' for name, text in texts.items() if not text)
        if texts['runbook'] not in places:
            yield f'{alert.name} leads to {texts["runbook"]}, which isn\'t there'
        yield from (f'{alert.name}: {wrong}' for wrong in wrong_commands(texts['description'], options))


def section():
    """The page's section of alerts."""
    return read(os.path.join(TOP, 'docs', 'OPERATING.md')).partition(f'\n## {SECTION}\n')[2].split('\n## ')[0]


def unexplained():
    """The alerts that the page's section doesn't name, and those that it names and aren't there."""
    for name in sorted(set(re.findall(r'`(Stickd\w+)`', section())) ^ {alert.name for alert in alerts()}):
        yield f'{name} stands in one alone of docs/OPERATING.md, {SECTION}, and packaging/prometheus'


def unread_example():
    """What promtool says of the page's example, where the rules are those of the sources; and the jobs that it and the rules don't share."""
    example = ''.join(f'{line[7:]}\n' for line in section().splitlines() if line.startswith('       '))
    if INSTALLED not in example:
        yield f'the example of docs/OPERATING.md has no {INSTALLED}'
    with tempfile.TemporaryDirectory(prefix='stickd-') as room:
        path = os.path.join(room, 'prometheus.yml')
        with open(path, 'w', encoding='utf-8') as file:
            file.write(example.replace(INSTALLED, RULES))
        said, status = promtool('check', 'config', path)
    if status != 0:
        yield from said.splitlines()
    for job in set(re.findall(r'job_name: (\w+)', example)) ^ set(re.findall(r'job="(\w+)"', read(RULES))):
        yield f'the job {job} stands in one alone of the example and the rules'


LOOKS = [unread_rules, failed_cases, missing_cases, wrong_texts, unexplained, unread_example]
