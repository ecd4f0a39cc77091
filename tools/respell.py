#!/usr/bin/env python3
"""Respells the repository's own definitions and lemmas as tools/names.tsv says, once, right after port.py.

Definitions that were in camel case are in snake case, and a dash is kept only between two names that stand for something by
themselves; a lemma that would fall together with a definition ends in _lem. Of the code only clauses have such names."""
import glob
import os
import re

TOP = os.path.dirname(os.path.dirname(os.path.abspath(__file__)))
with open(os.path.join(TOP, 'tools', 'names.tsv'), encoding='utf8') as table:
    NAMES = dict(line.rstrip('\n').split('\t') for line in table)
CAMEL = {old: new for old, new in NAMES.items() if re.search('[a-z0-9][A-Z]', old)}
TOKEN = re.compile(r'[^\s(){}\[\],;.:"`λ→]+')


def respelled(text, names):
    return TOKEN.sub(lambda m: names.get(m.group(0), m.group(0)), text)


def proof_line(line):
    """A line of antt: in a comment only the names that no prose has."""
    if line.lstrip().startswith('--'):
        return respelled(line, CAMEL)
    return respelled(line, NAMES)


def edit(lines):
    """A must-fail edit: its two texts are of the file that it names."""
    names = CAMEL if any(line.startswith('file: src/') for line in lines) else NAMES
    return [respelled(line, names) if line.startswith(('old:', 'new:')) else line for line in lines]


def page_line(line):
    """A document: the names that it puts between backticks."""
    return re.sub(r'`[^`]*`', lambda m: respelled(m.group(0), NAMES), line)


def rewrite(pattern, change):
    for path in glob.glob(os.path.join(TOP, pattern), recursive=True):
        if '/out/' in path[len(TOP):]:
            continue
        with open(path, encoding='utf8') as file:
            before = file.read()
        after = change(before)
        if after != before:
            with open(path, 'w', encoding='utf8') as file:
                file.write(after)


def by_line(change):
    return lambda text: ''.join(change(line) for line in text.splitlines(keepends=True))


rewrite('crates/*/specs/**/*.antt', by_line(proof_line))
rewrite('crates/*/proofs/**/*.antt', by_line(proof_line))
rewrite('crates/*/src/**/*.rt', by_line(lambda line: respelled(line, CAMEL)))
rewrite('crates/*/must-fail/*.edit', lambda text: ''.join(edit(text.splitlines(keepends=True))))
rewrite('README.md', by_line(page_line))
rewrite('docs/*.md', by_line(page_line))
