"""The dashboard of packaging/grafana: what it asks Prometheus, and what of it Grafana wouldn't take."""
import itertools
import json
import os
import re

from lib.places import TOP

BOARD = os.path.join(TOP, 'packaging', 'grafana', 'stickd.json')
# Of Grafana 9.1 to 10.
SCHEMAS = range(37, 40)
KINDS = ('row', 'stat', 'timeseries')
SOURCE = {'type': 'prometheus', 'uid': '${datasource}'}
# The variables of the dashboard, with their types; and those that Grafana has itself.
VARIABLES, OWN_VARIABLES = {'datasource': 'datasource', 'instance': 'query'}, {'__rate_interval'}
WIDTH = 24
# The units that are used, by Grafana's names for them: it shows any other word as it is.
UNITS = ('none', 'cps', 'ops', 'Bps', 'bytes', 's', 'percentunit', 'dateTimeAsIso')


def board():
    """The dashboard."""
    with open(BOARD, encoding='utf-8') as file:
        return json.load(file)


def queries():
    """Each expression of a panel, and how its answers are named."""
    for panel in board()['panels']:
        for target in panel.get('targets', []):
            yield target['expr'], target['legendFormat']


def asked_by_variables():
    """The metrics that variables ask for, each with the label whose values they take."""
    for variable in board()['templating']['list']:
        if variable['type'] == 'query':
            yield re.fullmatch(r'label_values\((\w+), (\w+)\)', variable['query']['query']).groups()


def wrong_in_head(shown):
    """What is wrong with the dashboard as a whole."""
    if shown['title'] != 'stickd' or shown['schemaVersion'] not in SCHEMAS:
        yield f'title {shown["title"]}, schemaVersion {shown["schemaVersion"]}'
    if shown['id'] is not None or shown['uid'] is not None:
        yield 'it has the id of one installation'
    variables = {variable['name']: variable for variable in shown['templating']['list']}
    if {name: variable['type'] for name, variable in variables.items()} != VARIABLES or variables['datasource']['query'] != 'prometheus':
        yield f'its variables are {sorted(variables)}'
    if variables['instance']['datasource'] != SOURCE or variables['instance']['definition'] != variables['instance']['query']['query']:
        yield 'its instances are asked elsewhere'


def overlap(one, other):
    """Whether two places of panels overlap."""
    return all(one[at] < other[at] + other[size] and other[at] < one[at] + one[size] for at, size in (('x', 'w'), ('y', 'h')))


def wrong_in_places(panels):
    """What is wrong with the panels' ids, titles and places."""
    for what, found in (('ids', [panel['id'] for panel in panels]), ('titles', [panel['title'] for panel in panels])):
        if len(set(found)) < len(found) or not all(found):
            yield f'its {what} are {found}'
    for panel in panels:
        if panel['gridPos']['x'] + panel['gridPos']['w'] > WIDTH:
            yield f'{panel["title"]} is wider than the page'
    for one, other in itertools.combinations(panels, 2):
        if overlap(one['gridPos'], other['gridPos']):
            yield f'{one["title"]} lies over {other["title"]}'


def wrong_in_panel(panel):
    """What is wrong with what a panel shows."""
    if panel['type'] not in KINDS:
        yield f'the type {panel["type"]}'
    if panel['type'] == 'row':
        return
    targets = panel['targets']
    if not targets or len({target['refId'] for target in targets}) < len(targets):
        yield 'it asks nothing, or two by one name'
    if not panel['description'] or panel['fieldConfig']['defaults']['unit'] not in UNITS:
        yield 'it has no description, or no unit that is known'
    for one in (panel, *targets):
        if one['datasource'] != SOURCE:
            yield f'the data source {one["datasource"]}'
    for target in targets:
        if set(re.findall(r'\$\{?(\w+)', target['expr'])) - OWN_VARIABLES != {'instance'}:
            yield f'{target["expr"]} isn\'t asked of the instances that were chosen'
        if not target['legendFormat']:
            yield f'{target["expr"]} has no name'


def wrong_in_board():
    """What is wrong with the dashboard."""
    try:
        shown = board()
        yield from wrong_in_head(shown)
        yield from wrong_in_places(shown['panels'])
        for panel in shown['panels']:
            yield from (f'panel {panel["title"]}: {wrong}' for wrong in wrong_in_panel(panel))
    except (ValueError, KeyError, TypeError) as fault:
        yield f'packaging/grafana/stickd.json: {fault!r}'


LOOKS = [wrong_in_board]
