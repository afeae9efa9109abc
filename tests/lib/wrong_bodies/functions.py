"""The functions of a crate's laid out code, as the checker names them, and what a change in its text is of."""
import os
import re

FUNCTION = re.compile(r'^( *)(?:pub(?:\([^)]*\))? )?(?:const |unsafe |extern "C" )*fn (\w+)(<[^(]*>)?')
CONSTANT = re.compile(r'^ *(?:pub(?:\([^)]*\))? )?const (\w+)')
IMPL = re.compile(r'^impl(<.*?>)? (?:(\w+)(?:<.*>)? for )?(\w+)(<.*>)? \{$')


class Function:
    """A function of a crate: its lines with what stands above it, its path as the checker names it, and whether it can be
    taken by its contract: it has a body, and isn't a trait's own."""

    def __init__(self, path, first, last, modules, can_be_taken):
        self.path, self.first, self.last, self.modules, self.can_be_taken = path, first, last, modules, can_be_taken

    def __eq__(self, other):
        return (self.path, self.first) == (other.path, other.first)

    def is_at(self, path, line):
        """Whether a line of a file lies in this function."""
        return self.path == path and self.first <= line <= self.last

    def renamed(self, ending):
        """A copy of this function under a longer name, which stands nowhere yet."""
        return Function(self.path, 0, 0, [*self.modules[:-1], f'{self.modules[-1]}_{ending}'], self.can_be_taken)


def text_of(file):
    """The text of a file."""
    with open(file, encoding='utf-8') as lines:
        return lines.read()


def texts_of(folder):
    """The texts of a crate's code, by their paths in it."""
    files = [os.path.join(at, name) for at, _, names in os.walk(os.path.join(folder, 'src')) for name in names]
    return {os.path.relpath(file, folder): text_of(file) for file in files}


def last_of(lines, at, indent):
    """The last line of the function that begins at a line with this indent: of its body, or of its clauses if it has none."""
    for number in range(at, len(lines)):
        is_outer = lines[number].startswith(indent) and not lines[number].startswith(indent + ' ')
        if is_outer and lines[number].endswith('{'):
            return next(it for it in range(number, len(lines)) if lines[it] == indent + '}')
        if is_outer and lines[number].endswith('}') or lines[number].endswith(';'):
            return number
    return at


def modules_of(path):
    """The path of the module that a file is."""
    file = re.sub(r'^src/|\.rt$', '', path)
    return [] if file in ('lib', 'main') else file.split('/')


def home_of(name, path, texts):
    """The path of the module that defines a type."""
    defined = re.compile(rf'^(?:pub(?:\([^)]*\))? )?(?:struct|enum) {name}\b', re.M)
    return modules_of(next((file for file, text in texts.items() if defined.search(text)), path))


def functions_of(path, texts):
    """The functions of a laid out file. What stands above one without a blank line belongs to it."""
    lines, owner = texts[path].split('\n'), None
    for at, line in enumerate(lines):
        found = IMPL.match(line)
        if found:
            owner = [*home_of(found[3], path, texts), found[3] + (found[2] or '')]
        elif re.match(r'(pub )?trait ', line):
            owner = None
        found = FUNCTION.match(line)
        if found:
            first, last = at, last_of(lines, at, found[1])
            while first and lines[first - 1].strip() and not lines[first - 1].endswith(('{', '}')):
                first -= 1
            modules = [*(owner if found[1] and owner else modules_of(path)), found[2]]
            can_be_taken = lines[last] == found[1] + '}' and last > at and bool(owner or not found[1])
            yield Function(path, first + 1, last + 1, modules, can_be_taken)


def impl_of(function, texts):
    """The first line of the `impl` block that a function stands in, or None."""
    lines = texts[function.path].split('\n')
    is_inner = lines[function.last - 1].startswith(' ')
    return next(filter(IMPL.match, reversed(lines[:function.first])), None) if is_inner else None


def imports_of(function, texts):
    """The lines by which the `impl` block that a function stands in brings words for its clauses."""
    lines, above = texts[function.path].split('\n')[:function.first], impl_of(function, texts)
    begins = len(lines) - lines[::-1].index(above) if above else len(lines)
    return [line for line in lines[begins:] if line.startswith('    ghost use ')]


def calls_itself(function, text, owner):
    """Whether the text of a function calls that function: a method by its type or by itself, another one by its name alone."""
    name = function.modules[-1]
    way = rf'\b(?:self\.|Self::|{owner}::){name}' if owner else rf'(?<!\bfn )(?<![.:\w]){name}'
    return re.search(rf'{way}(\(|::<)|#\[cycle', text) is not None


def can_be_copied(function, texts):
    """Whether a function can stand in its crate a second time, under another name: it is no trait's, and doesn't call itself."""
    lines, above = texts[function.path].split('\n'), impl_of(function, texts)
    text = '\n'.join(lines[function.first - 1:function.last])
    owner = IMPL.match(above)[3] if above else None
    is_free = not above or not IMPL.match(above)[2]
    return function.can_be_taken and is_free and not calls_itself(function, text, owner)


def changed_at(path, line, texts):
    """What a change at this line is of: its function; of a constant, each function that names it."""
    found = [it for it in functions_of(path, texts) if it.is_at(path, line)]
    constant = CONSTANT.match(texts[path].split('\n')[line - 1])
    if found or not constant:
        return found[-1:]
    return [it for file, text in texts.items() for it in functions_of(file, texts)
            if re.search(rf'\b{constant[1]}\b', '\n'.join(text.split('\n')[it.first - 1:it.last]))]
