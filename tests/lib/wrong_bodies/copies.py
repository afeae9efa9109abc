"""Copies of a crate with edits, in which the checker looks at the functions that they change."""
import json
import os
import re
import shutil
import tempfile

from lib import kit
from lib.wrong_bodies.answers import without
from lib.wrong_bodies.functions import Function, functions_of, impl_of, imports_of, text_of, texts_of

# How values are dropped of which nothing has to be dropped: no proof of that is read.
NOTHING_TO_DROP = 'Destruct++none'
# The one hole of a copy, and the proof of a function that is taken by its contract.
HOLE = """pub taken : {A : Type 2} → A
taken = ?
"""
TAKEN = """use Rattle.{crate}.proofs.Taken.{{taken}}
use Rattle.{module}.Statement.{{statement}}

pub {name}_spec : {{M : Type 1}} → statement M
{name}_spec = taken
"""


def is_left_whole(folder, function):
    """Whether a function of the crate in a folder keeps its body where others are taken by their contracts: its proof has another form."""
    return os.path.isdir(os.path.join(folder, 'proofs', *function.modules[:-1], f'+{function.modules[-1]}'))


def take_by_contract(crate, room, function):
    """Writes a proof by the hole for a function of the copy, in place of its own, where that form of proof is its form."""
    if is_left_whole(room, function):
        return False
    folder = os.path.join(room, 'proofs', *function.modules)
    os.makedirs(folder, exist_ok=True)
    for name in ('Invariants.antt', 'Answers.antt', 'Proof.antt'):
        if os.path.isfile(os.path.join(folder, name)):
            os.remove(os.path.join(folder, name))
    module = '.'.join([crate.name, 'proofs', *function.modules])
    with open(os.path.join(folder, 'Proof.antt'), 'w', encoding='utf-8') as proof:
        proof.write(TAKEN.format(crate=crate.name, module=module, name=function.modules[-1]))
    return True


def add_copy(crate, room, edit, texts, written):
    """Writes the copy of its function that an edit is applied to: at the end of the file, with proof files of its own."""
    function, made = edit.copied.functions[0], edit.functions[0]
    lines, above = edit.applied(function.path, texts[function.path]).split('\n'), impl_of(function, texts)
    body = '\n'.join(lines[function.first - 1:function.last])
    body = re.sub(rf'\bfn {function.modules[-1]}\b', f'fn {made.modules[-1]}', body)
    head = [above, *imports_of(function, texts)] if above else []
    made.first = written[function.path].count('\n') + 2 + len(head)
    made.last = made.first + function.last - function.first
    written[function.path] += '\n'.join(['', *head, body, *['}'] * bool(above), ''])
    folder = os.path.join(crate.folder, 'proofs', *function.modules)
    named = re.compile(rf'\.(proofs|contracts)\.{re.escape(".".join(function.modules))}(?=[.\s])')
    for at, _, names in os.walk(folder):
        into = os.path.join(room, 'proofs', *made.modules, os.path.relpath(at, folder))
        os.makedirs(into, exist_ok=True)
        for name in names:
            with open(os.path.join(into, name), 'w', encoding='utf-8') as proof:
                proof.write(named.sub(rf'.\1.{".".join(made.modules)}', text_of(os.path.join(at, name))))


def leave_out_answers(room, edit):
    """Takes the answers that an edit leaves out from the proof files of its functions in the copy, and notes which others go with them."""
    for function, names in zip(edit.functions, edit.dropped):
        file = os.path.join(room, 'proofs', *function.modules, 'Answers.antt')
        if names and os.path.isfile(file):
            text, gone = without(text_of(file), names)
            names |= gone
            with open(file, 'w', encoding='utf-8') as proof:
                proof.write(text)


def glue_of(crate):
    """The functions that the prover makes of types, to drop their values: the library that was proved has their code."""
    with open(os.path.join(crate.library, 'toolchain', 'mir.json'), encoding='utf-8') as code:
        paths = [name.split('::')[1:] for name, _ in json.load(code)]
    return [Function('', 0, 0, path, True) for path in paths if '+' in path[0] and path[-1] == 'drop' and path[0] != NOTHING_TO_DROP]


def make_hole(room):
    """Writes the lemma with a hole by which functions of the copy are taken."""
    proofs = os.path.join(room, 'proofs')
    os.makedirs(proofs, exist_ok=True)
    with open(os.path.join(proofs, 'Lib.antt'), 'a', encoding='utf-8') as lemmas:
        lemmas.write('mod Taken\n')
    with open(os.path.join(proofs, 'Taken.antt'), 'w', encoding='utf-8') as lemma:
        lemma.write(HOLE)


def without_body(text, function):
    """The text with nothing done in a function's body, on as many lines."""
    lines = text.split('\n')
    indent = re.match(' *', lines[function.last - 1])[0]
    begins = next(at for at in range(function.first - 1, function.last)
                  if lines[at].endswith('{') and re.match(rf'{indent}\S', lines[at]))
    body = range(begins + 1, function.last - 1)
    for at in body:
        lines[at] = f'{indent}    unreachable!()' if at == body[0] else ''
    return '\n'.join(lines)


def check(crate, edits, kept=None):
    """What the checker says of the functions that these edits change, in a copy of the crate with them, over the work that
    is kept, if any is."""
    texts, changed = texts_of(crate.folder), [function for edit in edits for function in edit.functions]
    written = dict(texts)
    with tempfile.TemporaryDirectory(prefix='wrong-bodies-') as room:
        for part in kit.PARTS:
            if os.path.isdir(os.path.join(crate.folder, part)):
                shutil.copytree(os.path.join(crate.folder, part), os.path.join(room, part))
        make_hole(room)
        taken = [it for path in texts for it in functions_of(path, texts) if it not in changed and it.can_be_taken]
        for function in taken:
            if take_by_contract(crate, room, function):
                written[function.path] = without_body(written[function.path], function)
        for function in glue_of(crate):
            take_by_contract(crate, room, function)
        for edit in edits:
            for path in written if not edit.copied else []:
                written[path] = edit.applied(path, written[path])
        for edit in edits:
            if edit.copied:
                add_copy(crate, room, edit, texts, written)
            leave_out_answers(room, edit)
        for path, text in written.items():
            with open(os.path.join(room, path), 'w', encoding='utf-8') as file:
                file.write(text)
        words = ['--incremental', kept] if kept else []
        asked = [word for it in changed for word in ('--only', '::'.join(it.modules))]
        said = crate.check([*words, *asked], room)
        return said if re.search(r'^only=', said, re.M) else crate.check(words, room)
