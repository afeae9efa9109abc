"""What expressions of Prometheus ask for, and what of it a program doesn't tell: its metrics are read from the text that it answers."""
import collections
import re

# Words that stand between metrics, and what is called on them.
BETWEEN = {'and', 'or', 'unless'}
CALLED = {'absent', 'increase', 'max', 'rate', 'resets', 'sum'}
# What a counter is read by: by itself it says nothing, and begins again with the program.
OF_COUNTERS = {'increase', 'rate'}
# What Prometheus itself knows of each target.
OWN, OWN_LABELS = 'up', {'instance', 'job'}
LISTED = re.compile(r'\b(by|without|on)\s*\(([^)]*)\)')
NAMED = re.compile(r'(?<![\w.])(?P<name>[A-Za-z_]\w*)\s*(?P<matchers>\{[^}]*\})?')
MATCHER = re.compile(r'(\w+)\s*(=~|!~|!=|=)\s*"([^"]*)"')

# The metrics of a program: the type of each, and the labels of each of its samples.
Told = collections.namedtuple('Told', 'types samples')


def told_by(text):
    """What a text of Prometheus' format tells."""
    samples = collections.defaultdict(list)
    for name, labels in re.findall(r'^(\w+)(?:\{(.*)\})? \S+$', text, re.M):
        samples[name].append(dict(re.findall(r'(\w+)="([^"]*)"', labels)))
    return Told(dict(re.findall(r'^# TYPE (\w+) (\w+)$', text, re.M)), samples)


def asked(expression):
    """Each metric of an expression, with its matchers, and what is called on it directly; what is called and isn't known is a metric too,
    so that nothing passes unseen."""
    bare = LISTED.sub(' ', re.sub(r'\[[^]]*\]', '', expression))
    at = 0
    while found := NAMED.search(bare, at):
        at = found.end()
        name = found['name']
        is_called = not found['matchers'] and bare[at:].startswith('(') and name in CALLED
        if name not in BETWEEN and not is_called:
            call = re.search(r'(\w+)\($', bare[:found.start()])
            yield name, MATCHER.findall(found['matchers'] or ''), call[1] if call else ''


def names_of(expression):
    """The names of its metrics."""
    return {name for name, _, _ in asked(expression)}


def labels_of(expression, told):
    """The labels that its answers may have."""
    labels = OWN_LABELS.union(*(sample for name in names_of(expression) for sample in told.samples[name]))
    for word, listed in LISTED.findall(expression):
        named = set(re.findall(r'\w+', listed))
        if word != 'on':
            labels = labels & named if word == 'by' else labels - named
    return labels


def is_met(how, wanted, values):
    """Whether samples with these values are there for a matcher: one for each of the words that it has between `|`."""
    words = wanted.split('|') if how == '=~' else [wanted]
    return bool(values) if how.startswith('!') else all(word in values for word in words)


def strange_of(name, matchers, call, told):
    """What is wrong with a metric that is asked for."""
    if name == OWN:
        return
    if name not in told.types:
        yield f'there is no metric {name}'
        return
    if (told.types[name] == 'counter') != (call in OF_COUNTERS):
        yield f'{name} is a {told.types[name]}, and {call or "nothing"} is called on it'
    for label, how, wanted in matchers:
        values = {sample[label] for sample in told.samples[name] if label in sample}
        if label not in OWN_LABELS and not is_met(how, wanted, values):
            yield f'{name} has no sample with {label}{how}"{wanted}"'


def strange(expression, told, texts=''):
    """What an expression asks for and the program doesn't tell; and the labels that texts name and its answers don't have."""
    for name, matchers, call in asked(expression):
        yield from strange_of(name, matchers, call, told)
    known = OWN_LABELS.union(*(sample for name in names_of(expression) for sample in told.samples[name]))
    for _, listed in LISTED.findall(expression):
        yield from (f'no metric of {expression} has the label {label}' for label in set(re.findall(r'\w+', listed)) - known)
    named = set(re.findall(r'\{\{[^}]*?\$labels\.(\w+)', texts)) | set(re.findall(r'\{\{\s*(\w+)\s*\}\}', texts))
    yield from (f'{expression} has no label {label}' for label in named - labels_of(expression, told))
