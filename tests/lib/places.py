"""Where things are: the tree that the tests are of, what they read there, and the built programs that they run."""
import os

TOP = os.path.dirname(os.path.dirname(os.path.dirname(os.path.abspath(__file__))))
ROWS = os.path.join(TOP, 'tests', 'rows')
CASES = os.path.join(TOP, 'tests', 'cases')
EXAMPLES = os.path.join(TOP, 'examples')
PAGE = os.path.join(TOP, 'man', 'stickd.1')
# The built programs that aren't in their crate's out/.
PROGRAMS = {}


def program_of(crate):
    """The program of a crate: the one that was given, or else the one that `rt ci` or `rt run` leaves in the crate's out/."""
    return PROGRAMS.get(crate, os.path.join(TOP, 'crates', crate, 'out', crate))


def stickd():
    """The program stickd that is run."""
    return program_of('stickd')
