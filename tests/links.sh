#!/usr/bin/env bash
# Resolves each relative link of the repository's Markdown files: the file is there, `#heading` is a heading of a
# Markdown file, and `#name` behind a source (.rt, .antt) is defined in that source.
# Prints each link that doesn't resolve and how many there are in all. Exit 1 where one doesn't, or where there is none,
# or where docs/img/crates.svg isn't the picture of crates.txt any more, or docs/claims and
# docs/DEFINITIONS.md aren't what the sources say.
set -u
cd "$(dirname "$0")/.." || exit 2
python3 docs/img/crates.py --check || exit 1
python3 docs/claims.py --check || exit 1
python3 docs/definitions.py --check || exit 1
exec python3 - "$@" <<'PYTHON'
import os
import re
import subprocess
import sys
from urllib.parse import unquote

FENCE = re.compile(r'\s*(```|~~~)')
CODE = re.compile(r'(`+)(.+?)(?<!`)\1(?!`)')
LINK = re.compile(r'\]\(\s*<?([^)\s>]+)>?(?:\s+"[^"]*")?\s*\)')
REFERENCE = re.compile(r'^\s{0,3}\[[^\]]+\]:\s*<?(\S+?)>?(?:\s|$)')
ATTRIBUTE = re.compile(r'\b(?:src|srcset|href)="([^"]+)"')
NAMED = re.compile(r'^[\w./-]+\.(?:rt|antt|md|sh|edit)#\S+$')
HEADING = re.compile(r'^ {0,3}(#{1,6})\s+(.*?)\s*#*\s*$')
ANCHOR = re.compile(r'<a\s+(?:id|name)="([^"]+)"')
# Documents whose code spans `file#name` are resolved, too.
WITH_NAMES = ('docs/PROOFS.md', 'docs/ARCHITECTURE.md', 'docs/DEFINITIONS.md')

contents = {}


def lines_of(path):
    if path not in contents:
        with open(path, encoding='utf-8') as file:
            contents[path] = file.read().split('\n')
    return contents[path]


def markdown_files():
    try:
        names = subprocess.run(
            ['git', 'ls-files', '-co', '--exclude-standard', '*.md'],
            check=True, capture_output=True, text=True).stdout.split('\n')
    except (OSError, subprocess.CalledProcessError):
        names = [os.path.join(top, name)[2:] for top, _, files in os.walk('.')
                 for name in files if name.endswith('.md')]
    return sorted(name for name in names if name and os.path.exists(name))


def prose_of(path):
    """The lines of a document that are no code block, with their numbers."""
    fenced = False
    for number, line in enumerate(lines_of(path), 1):
        if FENCE.match(line):
            fenced = not fenced
        elif not fenced:
            yield number, line


anchors = {}


def anchors_of(path):
    """The anchors of a document's headings, as GitHub makes them."""
    if path not in anchors:
        found = set()
        for _, line in prose_of(path):
            found.update(ANCHOR.findall(line))
            heading = HEADING.match(line)
            if heading:
                text = re.sub(r'!?\[([^\]]*)\]\([^)]*\)', r'\1', heading.group(2))
                text = re.sub(r'<[^>]*>', '', text)
                text = re.sub(r'[^\w\- ]', '', text.lower()).replace(' ', '-')
                anchor, again = text, 0
                while anchor in found:
                    again += 1
                    anchor = '%s-%d' % (text, again)
                found.add(anchor)
        anchors[path] = found
    return anchors[path]


def is_defined(path, name):
    word = re.escape(name)
    if path.endswith('.rt'):
        forms = (r'\b(?:fn|struct|enum|trait|const|static|type|mod|ghost)\s+%s(?!\w)' % word,
                 r'\b(?:ensures|requires)\s+%s\s*\{' % word)
    else:
        forms = (r'^\s*(?:(?:pub|abbrev|unfoldable|opaque|record|data|private)\s+)+%s(?=[\s:({]|$)' % word,
                 r'^\s*%s\s*:' % word)
    return any(re.search(form, line) for line in lines_of(path) for form in forms)


def fault_of(document, target):
    """Why a link of a document doesn't resolve, or None."""
    path, _, name = target.partition('#')
    name = unquote(name)
    if path.startswith('/'):
        path = path[1:]
    elif path:
        path = os.path.join(os.path.dirname(document), unquote(path))
    else:
        path = document
    path = os.path.normpath(path)
    if path.startswith('..'):
        return 'leads out of the repository'
    if not os.path.exists(path):
        return 'no such file'
    if not name:
        return None
    if path.endswith('.md'):
        return None if name in anchors_of(path) else 'no such heading'
    if path.endswith(('.rt', '.antt')):
        return None if is_defined(path, name) else 'not defined there'
    return 'a name behind a file that is no source and no document'


def links_of(document):
    for number, line in prose_of(document):
        spans = [span.span() for span in CODE.finditer(line)]
        found = [link for link in LINK.finditer(line)
                 if not any(a <= link.start() < b for a, b in spans)]
        for link in found:
            yield number, link.group(1)
        reference = REFERENCE.match(line)
        if reference:
            yield number, reference.group(1)
        for attribute in ATTRIBUTE.findall(line):
            yield number, attribute.split()[0]
        if document in WITH_NAMES:
            for span in CODE.finditer(line):
                if NAMED.match(span.group(2)):
                    # From the root, or as a link would be.
                    file = span.group(2).partition('#')[0]
                    yield number, ('/' if os.path.exists(file) else '') + span.group(2)


count, faults = 0, []
for document in markdown_files():
    for number, target in links_of(document):
        if re.match(r'[a-z][a-z0-9+.-]*:', target):
            continue
        count += 1
        fault = fault_of(document, target)
        if fault:
            faults.append('%s:%d: %s: %s' % (document, number, target, fault))

for fault in faults:
    print(fault)
print('%d links resolved, %d not' % (count - len(faults), len(faults)))
if count == 0:
    print('no link was found')
sys.exit(1 if faults or count == 0 else 0)
PYTHON
