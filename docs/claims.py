#!/usr/bin/env python3
"""Makes docs/claims/CRATE.md from the sources: what the contracts of a crate's public functions claim.

    python3 docs/claims.py            writes the pages
    python3 docs/claims.py --check    says which of them aren't what the sources say any more

A claim is the `//` lines directly above a clause of a contract, or above a ghost member of an impl. It stands for that
clause and for those behind it, up to the next claim; a line `//` alone parts two claims of one clause. Of the clauses above
the first claim the doc comment's first sentence is said, of a law its first paragraph. Behind `Not covered:` stands what
the clauses leave open. A clause and its file are named where the claim is, in the source, and a function without a claim isn't listed.

Laws are counted, with the file that states them in words; those of the crates in IN_WORDS stand here in their words.
"""
import glob
import os
import re
import sys

ROOT = os.path.join(os.path.dirname(os.path.abspath(__file__)), '..')
USE = re.compile(r'(?m)^ *ghost use Rattle\.(\w+)\.specs\.([\w.]+)\.\{([^}]*)\};')
FUNCTION = re.compile(r'( *)(pub )?fn (\w+)')
CLAUSE = re.compile(r' *(?:ensures|requires|ghost) ?(\w*) ?(?:= )?\{')
REQUIRED = re.compile(r' *requires\b')
BLOCK = re.compile(r'(?:pub )?(?:trait (\w+)|impl\b(?:<.*?> (?=\w))?(?:.* for )?\s*(\w+))')
# The crates whose laws make up the theorem.
IN_WORDS = ('site_recovery', 'world_core', 'command_line')


def read(path):
    with open(os.path.join(ROOT, path), encoding='utf-8') as file:
        return file.read()


def found(pattern):
    return [os.path.relpath(path, ROOT) for path in sorted(glob.glob(os.path.join(ROOT, pattern)))]


def stem(path):
    return os.path.splitext(os.path.basename(path))[0]


def crates():
    """The libraries of crates.txt, but for those of tests."""
    names = [line.split(':')[0].split()[0] for line in read('crates.txt').split('\n') if ':' in line and line[0] != '#']
    return [name for name in names if not name.endswith('_tests') and found(f'crates/{name}/src/lib.rt')]


def exports(crate):
    """The names that a crate's root gives out, modules among them."""
    text = read(f'crates/{crate}/src/lib.rt')
    used = re.findall(r'(?ms)^pub use \w[\w:]*?::(\w+|\{[^}]*\});', text)
    return set(re.findall(r'\w+', ' '.join(used))) | set(re.findall(r'(?m)^pub mod (\w+);', text))


class Function:
    """A function and its contract; or a type, and the ghost members of an impl that have claims."""

    def __init__(self, path, name, owner, doc, contract):
        self.name, self.owner = name, owner
        self.title, self.is_law = '::'.join(word for word in (owner, name) if word), path.endswith('laws.rt')
        self.claims, said = [], []  # each claim: its words, the labels of its clauses, their text, whether it is written there
        for line in contract:
            clause = CLAUSE.match(line)
            if line.strip().startswith('//'):
                said.append(line.strip()[2:].strip())
                continue
            if clause and said and self.claims and said[0].startswith('Not covered:'):
                self.claims[-1][0] += ' ' + ' '.join(said)
            elif clause and (said or not self.claims):
                words = [' '.join(part.split('\n')) for part in '\n'.join(said).split('\n\n')]
                words[0] = words[0] if said and not said[0].startswith('Not covered:') else f'{doc or "As its trait says"}. {words[0]}'.strip()
                self.claims.append(['<br>'.join(words), [], '', bool(said)])
            if clause:
                said, required = [], REQUIRED.match(line)
                self.claims[-1][1] += [] if required else [clause.group(1) or 'ensures']
            self.claims[-1][2] += '' if required else f'\n{line}'
        self.claims = [claim for claim in self.claims if claim[1]]


def without_links(text):
    return re.sub(r'\[(`[^`]*`)\](?:\([^)]*\))?', r'\1', text)


def said_first(lines, whole):
    """The first sentence of a doc comment, or its whole first paragraph."""
    text = '\n'.join(line.strip()[3:].strip() for line in lines if line.strip().startswith('///'))
    text = ' '.join(re.split(r'\n\n|\n- ', text)[0].split('\n'))
    text = without_links(text)
    return (text if whole else re.split(r'(?<=[.:])\s+(?=[A-Z#`-])', text)[0]).rstrip('.:')


def functions(path):
    """The functions of a source that others may call, where their types and modules are public."""
    lines, owner, head = read(path).split('\n'), None, ''
    for at, line in enumerate(lines):
        if re.match(r'(?:pub )?(?:trait|impl)\b', line):
            block = BLOCK.match(line)
            owner, head = next((name for name in block.groups() if name), None) if block else None, line
        elif line.startswith('}'):
            owner = None
        ghost = re.match(r'    ghost (?!use)', line) and ' = {' in line and ' for ' in head and 'Model for' not in head
        match = FUNCTION.match(line)
        first, end = at, at + 1
        if ghost and lines[at - 1].startswith('    //'):
            while lines[first - 1].startswith('    //'):
                first -= 1
            while not lines[end - 1].endswith('};'):
                end += 1
            yield Function(path, owner, None, '', lines[first:end])
        elif match:
            indent = match.group(1)
            clause = re.compile(indent + r'    (?:ensures|requires|//)')
            while not (lines[end - 1].endswith(('{', '{}', ';')) or lines[end].startswith(indent + '{') or clause.match(lines[end])):
                end += 1
            start = end
            while clause.match(lines[end]) and not lines[end - 1].endswith('};'):
                depth = lines[end].count('{') - lines[end].count('}')
                end += 1
                while depth > 0 and not lines[end - 1].strip().startswith('//'):
                    depth += lines[end].count('{') - lines[end].count('}')
                    end += 1
            while lines[first - 1].strip().startswith(('///', '#[')):
                first -= 1
            said = any(it.strip().startswith('// ') for it in lines[start:end])
            if match.group(2) or indent and ('trait' in head or said):
                yield Function(path, match.group(3), owner if indent else None, said_first(lines[first:at], 'laws' in path),
                               lines[start:end])


def definitions(path, text):
    """The capitalised names of specs that a text of a source cites, each with the file that defines it."""
    known = {}
    for crate, module, names in USE.findall(read(path)):
        for name in names.split(','):
            if name.strip():
                known[name.split()[-1]] = name.split()[0], f'crates/{crate}/specs/{module.replace(".", "/")}.antt'
    cited = [known[name] for name in re.findall(r'(?<![\w.])[A-Z]\w*', text) if name in known]
    return {name: file for name, file in cited if found(file)}


def entry(one, claims):
    """A function and what it claims: one line, or one for each claim below it."""
    lines = [line for words, *_ in claims for line in re.sub(r'Not covered: ((?:(?!<br>).)*)', r'*Not covered: \1*', words).split('<br>')]
    lines = [line for line in lines if line != 'As its trait says.']
    if len(lines) == 1:
        return [f'- `{one.title}`: {lines[0]}']
    return [f'- `{one.title}`', *(f'  - {line}' for line in lines)]


def page(crate):
    names, public, laws = exports(crate), {}, {}
    for path in found(f'crates/{crate}/src/*.rt'):
        for one in functions(path):
            claims = [claim for claim in one.claims if claim[3] or definitions(path, claim[2])]
            if not names & {stem(path), one.owner or one.name} or not any(claim[3] or one.is_law for claim in claims):
                continue
            ones = (laws if one.is_law else public).setdefault(path, [])
            if ones and ones[-1][0].title == one.title:
                ones[-1][1].extend(claims)
            else:
                ones.append((one, claims))
    if not public and not laws:
        return None
    out = [line for ones in public.values() for one, claims in ones for line in entry(one, claims)]
    if laws and crate in IN_WORDS:
        out += ['', 'Laws:', '', *(line for ones in laws.values() for one, claims in ones for line in entry(one, claims))]
    elif laws:
        out += ['', 'Laws: ' + ', '.join(f'{len(ones)} in `src/{stem(path)}.rt`' for path, ones in laws.items())]
    return '\n'.join([f'# Claims of {crate}', '', *out[not out[0]:], ''])


def main():
    folder = os.path.join(ROOT, 'docs/claims')
    os.makedirs(folder, exist_ok=True)
    pages = {f'{crate}.md': page(crate) for crate in crates()}
    pages = {name: text for name, text in pages.items() if text}
    stale = sorted(set(os.listdir(folder)) - set(pages))
    if sys.argv[1:] == ['--check']:
        stale += [name for name in pages if not found(f'docs/claims/{name}') or read(f'docs/claims/{name}') != pages[name]]
        sys.exit(f'docs/claims: {", ".join(stale)} not as the sources say: run docs/claims.py' if stale else 0)
    for name in stale:
        os.remove(os.path.join(folder, name))
    for name, text in pages.items():
        with open(os.path.join(folder, name), 'w', encoding='utf-8') as file:
            file.write(text)


main()
