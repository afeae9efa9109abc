"""Trials of what operators' alerts and dashboard ask Prometheus: that a running program tells all of it."""
from lib.alerts import alerts, annotation
from lib.board import asked_by_variables, queries
from lib.operations.watched import watched
from lib.promql import OWN, OWN_LABELS, names_of, strange, told_by


def told_now():
    """What a program tells that has just begun: each metric is there from its first scrape on."""
    with watched() as proxy:
        return told_by(proxy.fetched(b'GET /metrics HTTP/1.1\r\nHost: here\r\n\r\n')[2])


def alerts_ask_for_what_is_told():
    """Each metric of the alert rules is told, with the labels and the values that they name; rates are of counters alone; and their texts
    name labels that they have."""
    told = told_now()
    wrong = [f'{alert.name}: {fault}' for alert in alerts()
             for fault in strange(alert.expression, told, annotation(alert, 'summary') + annotation(alert, 'description'))]
    assert not wrong, '\n'.join(wrong)


def the_dashboard_asks_for_what_is_told():
    """So is each metric of the dashboard; and it shows all that is told."""
    told = told_now()
    wrong = [fault for expression, legend in queries() for fault in strange(expression, told, legend)]
    wrong += [f'a variable asks for {name}, {label}' for name, label in asked_by_variables()
              if name not in told.types or label not in OWN_LABELS]
    shown = {OWN}.union(*(names_of(expression) for expression, _ in queries()))
    wrong += [f'it does not show {name}' for name in sorted(set(told.types) - shown)]
    assert not wrong, '\n'.join(wrong)


TRIALS = [alerts_ask_for_what_is_told, the_dashboard_asks_for_what_is_told]
