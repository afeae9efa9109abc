"""Trials of the sum by which the result of an edit is kept: it has to change with all that the result rests on, and with nothing else."""
import os
import shutil
import tempfile

from lib import kit
from lib.places import TOP
from lib.wrong_bodies import pieces, sums
from lib.wrong_bodies.edits import edits_of
from lib.wrong_bodies.functions import text_of

# The edit whose sum is looked at: of `has_datum`, which calls `field_for` of another crate.
EDIT = 'rule_eval/legacy_fetch_is_not_stored'
# What is changed: what it is, the file, the text there and the one in its place.
CHANGES = [
    ('the edit', 'rule_eval/wrong.edits', 'columns.holds(datum),', 'columns.holds(datum), '),
    ('the body that it changes', 'rule_eval/src/tables.rt', 'named.spec.columns.field_for(datum).is_some(),',
     'named.spec.columns.field_for(datum) != None,'),
    ('the contract that it breaks', 'rule_eval/src/tables.rt', 'has_datum (slice_get setup.now.tables table) datum }',
     'has_datum (slice_get setup.now.tables 0) datum }'),
    ('where a name of that contract comes from', 'rule_eval/src/tables.rt', 'address_sample, has_datum, has_field}',
     'address_sample, has_datum as has_field, has_field as has_datum}'),
    ('a definition of that contract', 'rule_eval/specs/Tables.antt', 'has_datum (Some named) datum = ', 'has_datum (Some named) datum = not '),
    ('a definition that this one names', 'stored_data/specs/Fields.antt', 'option_and_then (if_stored columns) (stand_in datum)', 'None'),
    ('the contract of what the body calls', 'stored_data/src/stored_set.rt', 'result ≡ field_for self.now datum }',
     'result ≡ field_for [] datum }'),
    ('a type that the contract names', 'rule_model/src/sections.rt', '    pub name: Name,\n    pub spec: Spec,\n',
     '    pub name: Name,\n    pub spec: Spec,\n    pub is_open: bool,\n'),
    ('a type of a field of that', 'stick_model/src/specification.rt', '    pub size: u32,\n', '    pub size: u64,\n'),
]
# The same of what the result doesn't rest on.
OTHERS = [
    ('why the edit is wrong', 'rule_eval/wrong.edits', 'sc0_get_gpc0 is false where', 'sc0_get_gpc0 is wrong where'),
    ('a comment', 'rule_eval/src/tables.rt', '/// Whether a table stores a field.\n', '/// Whether a table has a field.\n'),
    ("a neighbour's body", 'rule_eval/src/tables.rt', 'named.spec.columns.stores(field),', 'named.spec.columns.stores(field) & true,'),
    ("a neighbour's contract", 'rule_eval/src/tables.rt', 'result ≡ position (λ named.', 'result ≡ position (λ other.'),
    ('a new function', 'rule_eval/src/tables.rt', '/// What the keys of a table are.\n',
     '/// None.\nfn none() -> Option<u32> {\n    None\n}\n\n/// What the keys of a table are.\n'),
    ('a new definition', 'rule_eval/specs/Tables.antt', '-- ---- tables\n',
     'abbrev pub no_table : Option ℕ\nno_table = None\n\n-- ---- tables\n'),
    ('a definition that is named nowhere', 'rule_eval/specs/Asked.antt', 'asked_by (Look slot) = Event', 'asked_by (Look other) = Event'),
    ('the body of what is called', 'stored_data/src/stored_set.rt', 'Some(element) => self.if_stored(element),',
     'Some(other) => self.if_stored(other),'),
    ('the contract of another function there', 'stored_data/src/stored_set.rt', 'IfOk result (λ set. set ≡ self.now) }',
     'IfOk result (λ copy. copy ≡ self.now) }'),
]
NUMBER = len(CHANGES) + len(OTHERS)


def sum_in(top):
    """The sum of the edit in a repository at this folder, as it is now."""
    pieces.promises_of.cache_clear()
    pieces.lemmas_of.cache_clear()
    crate = next(it for it in kit.crates_below(top) if it.name == EDIT.split('/')[0])
    edit = next(it for it in edits_of(crate, os.path.join(crate.folder, 'wrong.edits')) if it.name == EDIT)
    return sums.sum_without_judges(crate, edit)


def copy_to(top):
    """Copies what a sum is made from to a folder."""
    for name in sorted(os.listdir(TOP)):
        if os.path.isfile(os.path.join(TOP, name)):
            shutil.copy(os.path.join(TOP, name), top)
    for name in os.listdir(os.path.join(TOP, 'crates')):
        folder = os.path.join(TOP, 'crates', name)
        for part in kit.PARTS:
            if os.path.isdir(os.path.join(folder, part)):
                shutil.copytree(os.path.join(folder, part), os.path.join(top, 'crates', name, part))
        if os.path.exists(os.path.join(folder, 'wrong.edits')):
            shutil.copy(os.path.join(folder, 'wrong.edits'), os.path.join(top, 'crates', name))


def faults():
    """What changes the sum and mustn't, or doesn't and must."""
    with tempfile.TemporaryDirectory(prefix='sums-of-edits-') as top:
        copy_to(top)
        before = sum_in(top)
        for is_part, changes in ((True, CHANGES), (False, OTHERS)):
            for what, path, old, new in changes:
                file = os.path.join(top, 'crates', path)
                text = text_of(file)
                if text.count(old) != 1:
                    yield f"{what}: '{old.strip()}' stands in {path} {text.count(old)} times"
                    continue
                with open(file, 'w', encoding='utf-8') as changed:
                    changed.write(text.replace(old, new))
                if (sum_in(top) != before) != is_part:
                    yield f'{what}: the sum {"stays" if is_part else "changes"}'
                with open(file, 'w', encoding='utf-8') as changed:
                    changed.write(text)
