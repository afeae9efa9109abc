"""What the checker's words say of an edit: whether a goal became false, or only the answer of a proof file no longer fits."""
import collections
import re

# Each message of the checker begins with such a line; what follows belongs to it.
BEGINS = re.compile(r'^(?:(?:\./)?(?:src|specs|proofs)/\S+:\d+:\d+: |note: |warning: |help: |fn |struct |enum |logic|statements |only=)')
# What it says of a goal of a function, at its place; the goal's name comes after.
OPEN_GOAL = re.compile(r'^note: (?:\./)?(src/\S+?):(\d+):\d+: (?:it is not proved that |`search` (?:found no proof|gave up))')
NAME_OF_GOAL = re.compile(r'\(`([^`]+)`\)')
# What it says of a proof file of a function: the file's folder and name, what is defined there, and what is wrong.
PROOF_FILE = re.compile(r'^(?:\./)?proofs/(\S+)/(Answers|Invariants|Proof)\.antt:\d+:\d+: error: `([^`]*)`: (.*)', re.S)
NAME_IS_GONE = re.compile(r'is not in scope|has no field|is no name|has no `|no such|unknown')
# Where it found values for which the goal is false.
VALUES = re.compile(r'the goal fails, at|values at which this goal is false')
# What it says of a text that it can't read.
UNREAD = re.compile(r'^(?:\./)?(src/\S+?):(\d+):\d+: error\b')

REFUSED, WEAK, MISFIT, UNREAD_TEXT, NOTHING = 'refused', 'weak', 'misfit', 'unread', 'nothing'

Found = collections.namedtuple('Found', 'verdict misfits')


def messages_of(said):
    """The checker's messages, each whole."""
    messages = []
    for line in said.splitlines():
        if BEGINS.match(line) or not messages:
            messages.append(line)
        else:
            messages[-1] += '\n' + line
    return messages


def open_goals(function, messages):
    """The goals of a function that nothing proves: of each its name, and whether values were found for which it is false."""
    for message in messages:
        found = OPEN_GOAL.match(message)
        if found and function.is_at(found[1], int(found[2])):
            name = NAME_OF_GOAL.search(message, found.end())
            yield name[1] if name else None, VALUES.search(message) is not None


def faults_of_proofs(function, messages):
    """What is wrong in the proof files of a function."""
    faults = filter(None, map(PROOF_FILE.match, messages))
    return [found for found in faults if found[1].split('/') == function.modules]


def judged_function(function, dropped, messages):
    """The same as `judged` of one function that an edit changes, where these of its answers were left out."""
    faults = faults_of_proofs(function, messages)
    if any(NAME_IS_GONE.search(fault[4].split('\n')[0]) for fault in faults):
        return NOTHING, set()
    goals = list(open_goals(function, messages))
    is_false = any(has_values or name not in dropped for name, has_values in goals)
    if is_false or any(VALUES.search(fault[4]) for fault in faults):
        return REFUSED, set()
    misfits = {fault[3] for fault in faults if fault[2] == 'Answers'} - dropped
    if misfits:
        return MISFIT, misfits
    # A goal that only the answer had proved is left, or the file isn't one of answers.
    return (WEAK if goals or faults else NOTHING), set()


def judged(edit, messages):
    """What the checker says of an edit. It is refused where a goal of a function that it changes is false: the checker tells
    values for that, or a goal that needs no answer is open. Where only an answer no longer fits, that says nothing yet: its
    goal is tried without it. If it is only open then, the refusal is weak. Of each function the answers that no longer fit."""
    verdicts = [judged_function(function, dropped, messages) for function, dropped in zip(edit.functions, edit.dropped)]
    said = [verdict for verdict, _ in verdicts]
    if REFUSED in said:
        return Found(REFUSED, [])
    if MISFIT in said:
        return Found(MISFIT, [misfits for _, misfits in verdicts])
    if WEAK in said:
        return Found(WEAK, [])
    is_unread = any(edit.is_at(found[1], int(found[2])) for found in map(UNREAD.match, messages) if found)
    return Found(UNREAD_TEXT if is_unread else NOTHING, [])
