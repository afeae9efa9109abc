"""The calls that a program's tables had, reckoned by what its clients did, beside the line that it writes of each table in the end."""
import re
import time

# A connection that one slot tracks is tracked and released; where it is admitted, its session and its bytes each way are counted.
REJECTED, ADMITTED = 2, 5
# How often a rule that asks about an entry looks at it.
LOOK = 1


def calls_told(written):
    """How many calls each table had, as the lines at the end tell; each of them has to say that no reference is out."""
    ends = re.findall(r'settled (\S+): (\d+) calls, 0 references\n', written)
    assert written == ''.join(f'settled {name}: {calls} calls, 0 references\n' for name, calls in ends), written
    return {name: int(calls) for name, calls in ends}


def rounds_told(said, seconds):
    """How many rounds of housekeeping there were, of which each comes a second after the one before, at the earliest."""
    rounds = int(re.search(r'housekeeping: (\d+) rounds, \d+ records began again, 0 refusals', said)[1])
    assert rounds <= seconds, f'{rounds} rounds in {seconds} s'
    return rounds


def calls_of_clients(written, said, seconds, shards=1):
    """How many of the calls of each table its clients made: those that are told in the end, but for one of each shard in each round of
    housekeeping. The program ran for so many seconds."""
    house = rounds_told(said, seconds) * shards
    return {name: calls - house for name, calls in calls_told(written).items()}


def ended_after(proxy, least, most=None, shards=1):
    """That a program ends well, and that the clients of its one table made so many calls: just so many, or a number between both."""
    status, written, said = proxy.ended()
    calls = calls_of_clients(written, said, time.monotonic() - proxy.began, shards)
    assert status == 0 and set(calls) == {'www'}, (status, written, said)
    assert least <= calls['www'] <= (least if most is None else most), (least, most, calls, said)
