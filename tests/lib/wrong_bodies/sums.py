"""What the result of an edit rests on, as one sum: the kit, how edits are tried and judged, the edit, the functions that it changes with
their proofs, and what these name, here and in the crates below. A proof rests on the contracts of what it calls and not on their
bodies, so bodies and proofs of other functions count for nothing, and neither do comments."""
import ast
import functools
import glob
import hashlib
import os
import subprocess

from lib import kit
from lib.wrong_bodies.functions import text_of, texts_of
from lib.wrong_bodies.pieces import antt_files, antt_lines, function_lines, imports_of, lemmas_of, names_in, promises_of, reached, with_imports

# What decides how an edit is tried and judged.
JUDGES = [kit.__file__, *sorted(glob.glob(os.path.join(os.path.dirname(__file__), '*.py')))]
# These choose edits and keep what came of them.
OTHERS = ('sums.py', 'sum_trials.py', 'pieces.py', 'kept.py')


def code_of(path):
    """What a file of Python does: its code without its layout, its comments and the texts that describe it."""
    tree = ast.parse(text_of(path))
    for node in ast.walk(tree):
        if isinstance(node, (ast.Module, ast.ClassDef, ast.FunctionDef)) and ast.get_docstring(node) is not None:
            node.body = node.body[1:]
    return ast.dump(tree)


def sum_of(*parts):
    """The sum of these texts, in their order."""
    whole = hashlib.sha256()
    for part in parts:
        whole.update(hashlib.sha256(part.encode()).digest())
    return whole.hexdigest()[:32]


@functools.cache
def sum_of_judges():
    """The sum of the kit and of what tries and judges edits."""
    version = subprocess.run(['rt', 'version'], stdout=subprocess.PIPE, text=True, check=True).stdout
    return sum_of(version, *(code_of(path) for path in JUDGES if os.path.basename(path) not in OTHERS))


@functools.cache
def pieces_around(crate):
    """The pieces that the functions of a crate may name."""
    return [piece for it in [crate, *crate.below] for piece in promises_of(it.name, it.folder)] + lemmas_of(crate.name, crate.folder)


def lines_of_edited(crate, edit):
    """The functions that an edit changes, with their proofs."""
    texts, lines = texts_of(crate.folder), []
    for function in edit.functions:
        lines += function_lines(function, texts, texts[function.path])
        for path in antt_files(crate.folder, 'proofs', *function.modules):
            own = antt_lines(crate.folder, path)
            lines += with_imports(own, imports_of(own))
    return lines


def sum_without_judges(crate, edit):
    """The sum of an edit, of the functions that it changes, and of what they name."""
    lines = [edit.name, *edit.lines, *lines_of_edited(crate, edit)]
    return sum_of(*lines, *reached(pieces_around(crate), names_in(crate.name, lines)))


@functools.cache
def sum_of_edit(crate, edit):
    """The sum of all that the result of a crate's edit rests on."""
    return sum_of(sum_of_judges(), crate.name, sum_without_judges(crate, edit))
