"""Runs of a program with each of its allocations refused in turn, and what it says where memory is short."""
import re

# What a program says on standard error where a growth is refused, and its status: of the configuration, the file or the command
# line, behind the lines that are read past.
SHORT = re.compile(r"1 (?:stickd: line \d+: read past\n)*(?:stickd: line \d+: C12 out of memory\n|stickd: \S+ can't be read: out of memory\n|"
                   r'stickd: out of memory\n)|2 error: out of memory\n')


def refuse_runs(name, run, is_right):
    """Refuses each allocation of a program in turn: all those that it asks for with none refused, which are counted. How many runs
    were right, and how many were not."""
    wanted = run(0)
    if not wanted.allocations:
        print('%s: no allocation was counted' % name)
        return 0, 1
    passed, failed, met = 0, 0, 0
    for refused in range(1, wanted.allocations + 1):
        found = run(refused)
        was_met = found.allocations is not None and found.allocations >= refused
        met += was_met
        if was_met and (found == wanted or is_right(found, wanted)):
            passed += 1
        else:
            failed += 1
            print('%s with allocation %d refused%s: %r' % (name, refused, '' if was_met else ', which it never asked for', found))
    print('%s: %d of %d allocations were refused' % (name, met, wanted.allocations))
    return passed, failed


def is_short(found):
    """Whether a run says that memory is short, and nothing else."""
    return found[1] == '' and SHORT.fullmatch('%d %s' % (found[0], found[2])) is not None
