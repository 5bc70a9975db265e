#!/usr/bin/env bash
# Prints what the contract of a function stands on, or a definition of specs, in reading order: the definitions of specs and the types that its
# clauses and its signature name first, and then what those name, depth first, each once, with its place and lines. The
# last line says how many they are. It reads the sources alone. Of a type that has a model it takes what the model shows;
# what the type keeps as its invariant, what the kit defines, and what a caller chooses with a type aren't counted.
#
#     tests/statement.sh [--count | --text] [--limit N] CRATE::MODULE::[TYPE::]FUNCTION ..
#     tests/statement.sh [--count | --text] [--limit N] CRATE.specs.MODULE.DEFINITION ..
#
# --count prints the last line alone, --text the definitions themselves. Exit 1 where a function isn't found, has no
# clause, or stands on more than N definitions of specs; 2 for a bad command line.
set -u
cd "$(dirname "$0")/.." || exit 2
exec python3 - "$@" <<'PYTHON'
import os
import re
import sys
from functools import lru_cache

COMMENT = re.compile(r'(?m)^\s*(?:--|//).*$|\s--\s.*$')
USE = re.compile(r'(?m)^\s*(?:ghost )?use Rattle\.([\w.]+?)(?:\.\{([^}]*)\}| as (\w+));?\s*$')
RUST_USE = re.compile(r'(?ms)^\s*(?:pub(?:\([^)]*\))? )?use (\w[\w:]*?)(?:::\{([^}]*)\})?;')
HEADER = re.compile(r'^(\s*)(?:(?:abbrev|unfoldable) (?:pub )?|pub (?:abbrev |unfoldable )?)(record |data )?([^\s:(){}]+)(?=[\s:({])'
                    r'|^(\s*)(record|data) ([^\s:(){}]+)(?=[\s:({])')
RUST_TYPE = re.compile(r'(?m)^( *)(?:pub(?:\([^)]*\))? )?(struct|enum|type) (\w+)')
RUST_CONST = re.compile(r'(?m)^( *)(?:pub(?:\([^)]*\))? )?const (\w+):')
MODEL = re.compile(r'(?m)^impl\b[^\n]*?\bModel for (\w+)')
HIDDEN = re.compile(r'(?m)^\s*ghost (?:coded|invariant) = \{')
TOKEN = re.compile(r'[^\s(){}\[\];,|<>&:]+')
BOUND = re.compile(r'λ ((?:[^.()]|\([^()]*\))*)\.|[({]([^(){}:]+?) : ')


def fail(text, status=1):
    print(f'statement.sh: {text}', file=sys.stderr)
    sys.exit(status)


@lru_cache(maxsize=None)
def source(path):
    with open(path, encoding='utf-8') as file:
        return file.read()


def blank(match):
    """As long as the comment, so that places stay."""
    return re.sub(r'[^\n]', ' ', match.group(0))


@lru_cache(maxsize=None)
def bare(path):
    return COMMENT.sub(blank, source(path))


def closing(text, at):
    """The place behind the bracket that closes the one at this place."""
    depth = 0
    for place in range(at, len(text)):
        if text[place] in '{(':
            depth += 1
        elif text[place] in '})':
            depth -= 1
            if depth == 0:
                return place + 1
    return len(text)


def names_in(listing):
    """What a list in braces brings in: the name here, and the name there."""
    for item in listing.split(','):
        words = item.split()
        if words and '◌' not in words[0]:
            yield (words[2] if len(words) == 3 and words[1] == 'as' else words[-1]), words[0]


class Definition:
    def __init__(self, name, path, start, end, first=None, around=''):
        self.name, self.path, self.start, self.end = name, path, start, end
        self.first = start if first is None else first
        self.around = around
        self.key = (path, start)

    def text(self):
        return bare(self.path)[self.start:self.end]

    def line(self):
        return source(self.path).count('\n', 0, self.start) + 1

    def lines(self):
        return sum(1 for line in self.text().split('\n') if line.strip())

    def mentions(self):
        text = self.around + '\n' + self.text()
        if self.path.endswith('.rt'):
            return rust_mentions(self.path, text, self.uses())
        return spec_mentions(self.path, text, self.name)

    def uses(self):
        return ghost_uses(self.path, self.text())


class Module:
    """The definitions of a file of specs."""

    def __init__(self, path):
        self.found = {}
        self.uses = {}
        self.aliases = {}
        text = bare(path)
        for match in USE.finditer(text):
            if match.group(3):
                self.aliases[match.group(3)] = match.group(1)
            else:
                for here, there in names_in(match.group(2)):
                    self.uses[here] = (match.group(1), there)
        self.read(path, text)

    def read(self, path, text):
        place = 0
        open_at = None
        modules = []
        around = []
        for line in text.split('\n') + ['end']:
            indent = len(line) - len(line.lstrip())
            match = HEADER.match(line)
            if line.strip() and not line.startswith(('use ', 'pub use ', 'pub mod ')):
                while modules and indent <= modules[-1]:
                    modules.pop()
                    around.pop()
                level = modules[-1] + 2 if modules else 0
                if open_at and (line == 'end' or indent <= open_at[0] and (match or line.lstrip().startswith(('module ', 'advice '))) or indent < open_at[0]):
                    self.close(path, text, open_at, place)
                    open_at = None
                if line.lstrip().startswith('module '):
                    modules.append(indent)
                    around.append(line)
                elif match and not open_at and indent == level:
                    name = match.group(3) or match.group(6)
                    kind = (match.group(2) or match.group(5) or '').strip()
                    open_at = (indent, name, kind, place, '\n'.join(around))
            place += len(line) + 1

    def close(self, path, text, opened, end):
        indent, name, kind, start, around = opened
        first = start
        whole = source(path)
        while True:
            before = whole.rfind('\n', 0, max(first - 1, 0)) + 1
            if first == 0 or not whole[before:first].lstrip().startswith('--'):
                break
            first = before
        end = start + len(text[start:end].rstrip())
        definition = Definition(name, path, start, end, first, around)
        self.found.setdefault(name, definition)
        if kind == 'data':
            for made in re.findall(r'(?m)^ +([^\s:]+) :', text[start:end]):
                self.found.setdefault(made, definition)


@lru_cache(maxsize=None)
def module(path):
    return Module(path)


@lru_cache(maxsize=None)
def rust_files(crate):
    found = []
    for folder, _, names in os.walk(f'crates/{crate}/src'):
        found += [os.path.join(folder, name) for name in sorted(names) if name.endswith('.rt')]
    return sorted(found)


@lru_cache(maxsize=None)
def rust_types(path):
    """The types, constants and models of a source."""
    text = bare(path)
    types, models = {}, {}
    for match in RUST_TYPE.finditer(text):
        ends = [place for place in (text.find('{', match.end()), text.find(';', match.end())) if place >= 0]
        at = min(ends, default=len(text))
        end = closing(text, at) if at < len(text) and text[at] == '{' else at + 1
        types.setdefault(match.group(3), Definition(match.group(3), path, match.start(), end))
    for match in RUST_CONST.finditer(text):
        types.setdefault(match.group(2), Definition(match.group(2), path, match.start(), text.find(';', match.end()) + 1))
    for match in MODEL.finditer(text):
        end = closing(text, text.find('{', match.end()))
        models[match.group(1)] = Definition(f'Model for {match.group(1)}', path, match.start(), end)
    return types, models


@lru_cache(maxsize=None)
def rust_type(crate, name, where=''):
    """A type of a crate, or its model, where it has one; `where` is a module that may hold it."""
    paths = rust_files(crate)
    stem = f'crates/{crate}/src/' + where.replace('.', '/').replace('::', '/') + '.rt'
    for path in sorted(paths, key=lambda path: path != stem):
        if name in rust_types(path)[0]:
            for other in sorted(paths, key=lambda other: other != path):
                if name in rust_types(other)[1]:
                    return rust_types(other)[1][name]
            return rust_types(path)[0][name]
    return None


@lru_cache(maxsize=None)
def crates():
    return frozenset(name for name in os.listdir('crates') if os.path.isdir(f'crates/{name}/src'))


def resolve(place, name):
    """A name of a module that specs name by its path; None for one of the kit."""
    parts = place.split('.')
    if parts[0] not in crates() or len(parts) < 3 or parts[1] != 'specs':
        return None
    if parts[2] == 'declared':
        if parts[-1] == 'TheVariants':
            return rust_type(parts[0], parts[-2], '.'.join(parts[3:-2]))
        if parts[-1] == 'TheConstants':
            return rust_type(parts[0], name, '.'.join(parts[3:-1]))
        return rust_type(parts[0], name, '.'.join(parts[3:-1]))
    path = f'crates/{parts[0]}/specs/' + '/'.join(parts[2:]) + '.antt'
    return module(path).found.get(name) if os.path.exists(path) else None


def words(text):
    """The words of a text in order, without fields and what it binds itself."""
    text = re.sub(r'([{;]\s*)[\w-]+\s*=(?!=)', r'\1', text)
    bound = set()
    for match in BOUND.finditer(text):
        bound.update((match.group(1) or match.group(2)).replace('(', ' ').replace(')', ' ').replace(',', ' ').split())
    for token in TOKEN.findall(text):
        parts = token.split('.')
        if parts[0] and not (parts[0] in bound and parts[0][0].islower()):
            yield parts


def spec_mentions(path, text, own=None):
    scope = module(path)
    for parts in words(text):
        found = None
        if parts[0] in scope.found:
            found = scope.found[parts[0]]
        elif parts[0] in scope.uses:
            found = resolve(*scope.uses[parts[0]])
        elif parts[0] in scope.aliases and len(parts) > 1:
            found = resolve(scope.aliases[parts[0]], parts[1])
        if found is not None and found.name != own:
            yield found


def ghost_uses(path, own=''):
    """What the ghost imports of a file bring in, but for those of other items of it."""
    text = bare(path)
    text = re.sub(r'(?m)^ghost use [^;]*;', lambda use: ' '.join(use.group().split()), text)
    flat = re.sub(r'(?m)^ .*$', '', text)
    uses = {}
    for match in list(USE.finditer(flat)) + list(USE.finditer(own)):
        if match.group(2):
            for here, there in names_in(match.group(2)):
                uses[here] = (match.group(1), there)
        else:
            uses[match.group(3)] = (match.group(1), None)
    return uses


@lru_cache(maxsize=None)
def rust_uses(path):
    uses = {}
    crate = path.split('/')[1]
    for match in RUST_USE.finditer(bare(path)):
        place = match.group(1).split('::')
        names = [word for _, word in names_in(match.group(2))] if match.group(2) else [place.pop()]
        root = crate if place and place[0] == 'crate' else place[0] if place else ''
        for name in names:
            uses[name] = (root, '::'.join(place[1:]))
    return uses


def rust_mentions(path, text, uses):
    crate = path.split('/')[1]
    own = rust_types(path)[0]
    rust = rust_uses(path)
    text = re.sub(r'(?m)^\s*ghost use .*;$', '', text)
    for match in reversed(list(HIDDEN.finditer(text))):
        text = text[:match.start()] + text[closing(text, match.end() - 1):]
    text = re.sub(r'(?m)^\s*ghost \w+ =', '', text)
    text = re.sub(r'(?m)^\s*(?:#\[.*\]|impl\b.*\{)$', '', text)
    text = re.sub(r'(?m)\b(?:pub(?:\([^)]*\))? )?\w+: ', ' ', text)
    for parts in words(text):
        found = None
        if parts[0] in uses:
            place, name = uses[parts[0]]
            name = name or (parts[1] if len(parts) > 1 else '')
            found = resolve(place, name)
        elif parts[0] in own:
            found = rust_type(crate, parts[0], os.path.relpath(path, f'crates/{crate}/src')[:-3])
        elif parts[0] in rust and rust[parts[0]][0] in crates():
            found = rust_type(rust[parts[0]][0], parts[0], rust[parts[0]][1])
        if found is not None:
            yield found


def find(path_of_function):
    """The contract of a function: its source, its clauses and its signature."""
    parts = path_of_function.split('::')
    if len(parts) < 3 or parts[0] not in crates():
        fail(f'{path_of_function}: no crate and module of this repository')
    name = parts[-1]
    for cut in (len(parts) - 1, len(parts) - 2):
        path = f'crates/{parts[0]}/src/' + '/'.join(parts[1:cut]) + '.rt'
        if cut < 2 or not os.path.exists(path):
            continue
        owner = parts[cut] if cut == len(parts) - 2 else None
        text = bare(path)
        for match in re.finditer(rf'(?m)^( *)(?:pub(?:\([^)]*\))? )?fn {re.escape(name)}\b', text):
            head = block_around(text, match.start()) if match.group(1) else ''
            of = re.search(r'\bfor (\w+)|^(?:pub )?trait (\w+)|^impl(?:<[^{]*?>)? (\w+)', head) if head else None
            found = next((one for one in of.groups() if one), None) if of else None
            if found == owner:
                return path, text, match.start(), match.group(1), owner, head
    fail(f'{path_of_function}: not found')


def block_around(text, at):
    """The head of the impl or trait in which a place stands."""
    heads = [match for match in re.finditer(r'(?m)^(?:pub(?:\([^)]*\))? )?(?:impl|trait)\b[^{;]*\{', text[:at])]
    return heads[-1].group(0) if heads else ''


def statement(name):
    """What a function's contract names first; or a definition of specs itself."""
    if '.specs.' not in name:
        return contract(name)
    place, _, last = name.rpartition('.')
    found = resolve(place, last)
    if found is None:
        fail(f'{name}: not found')
    return [found]


def contract(path_of_function):
    path, text, start, indent, owner, head = find(path_of_function)
    body = re.compile(rf'(?m)^{indent}\{{|^{indent}\S.*(?:\{{|;)$').search(text, start)
    end = body.start() if body and text[body.start():body.end()].strip() == '{' else body.end() if body else len(text)
    whole = text[start:end]
    clauses, signature, place = [], whole, 0
    for match in re.finditer(r'(?m)^\s*(?:requires|ensures)\b[^{]*\{', whole):
        stop = closing(whole, match.end() - 1)
        if not clauses:
            signature = whole[:match.start()]
        clauses.append(whole[match.end():stop - 1])
        place = stop
    if not clauses:
        fail(f'{path_of_function}: has no clause')
    uses = ghost_uses(path, item_of(text, start))
    found = [one for clause in clauses for one in rust_mentions(path, clause, uses)]
    typed = re.sub(rf'\bfn {path_of_function.split("::")[-1]}\b', '', signature)
    if owner and re.search(r'\bself\b', typed):
        typed += f' {owner}'
    found += list(rust_mentions(path, re.sub(r'\bSelf\b', owner or '', typed), {}))
    return found


def item_of(text, at):
    """The ghost imports of the impl or trait in which a place stands."""
    heads = [match for match in re.finditer(r'(?m)^(?:pub(?:\([^)]*\))? )?(?:impl|trait)\b[^{;]*\{', text[:at])]
    return text[heads[-1].start():closing(text, heads[-1].end() - 1)] if heads else ''


def reading_order(first):
    seen, order = set(), []
    def add(definition):
        if definition.key in seen:
            return False
        seen.add(definition.key)
        order.append(definition)
        return True
    opened = [definition for definition in first if add(definition)]
    pending = [iter(definition.mentions()) for definition in reversed(opened)]
    while pending:
        for definition in pending[-1]:
            if add(definition):
                pending.append(iter(definition.mentions()))
                break
        else:
            pending.pop()
    return order


def main(arguments):
    form, limit, names = '', None, []
    while arguments:
        word = arguments.pop(0)
        if word in ('--count', '--text'):
            form = word
        elif word == '--limit' and arguments and arguments[0].isdigit():
            limit = int(arguments.pop(0))
        elif word.startswith('-'):
            fail(f'{word}: no such option', 2)
        else:
            names.append(word)
    if not names:
        fail('name a function, as in tests/statement.sh world_core::worlds::World::run', 2)
    status = 0
    for name in names:
        order = reading_order(statement(name))
        for definition in order:
            if form == '--text':
                print(source(definition.path)[definition.first:definition.end].rstrip() + '\n')
            elif not form:
                print(f'{definition.path}:{definition.line()} {definition.name} {definition.lines()}')
        specs = sum(1 for definition in order if definition.path.endswith('.antt'))
        files = len({definition.path for definition in order})
        print(f'{name}: {specs} definitions and {len(order) - specs} types, '
              f'{sum(one.lines() for one in order)} lines in {files} files')
        if limit is not None and specs > limit:
            print(f'statement.sh: {name}: more than {limit} definitions', file=sys.stderr)
            status = 1
    sys.exit(status)


main(sys.argv[1:])
PYTHON
