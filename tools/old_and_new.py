#!/usr/bin/env python3
"""Prints each public signature, clause and definition of specs/ that changed since a commit, old and new side by side: python3 tools/old_and_new.py COMMIT"""
import glob
import re
import subprocess
import sys

import places


def show(commit, path):
    done = subprocess.run(['git', 'show', f'{commit}:{path}'], capture_output=True, text=True)
    return done.stdout if done.returncode == 0 else ''


def tree(commit, pattern):
    if commit is None:
        return {path: open(path, encoding='utf-8').read() for path in sorted(glob.glob(pattern, recursive=True))}
    listed = subprocess.run(['git', 'ls-tree', '-r', '--name-only', commit, 'crates'], capture_output=True, text=True, check=True).stdout.split()
    suffix = '.rt' if '/src/' in pattern else '.antt'
    folder = '/src/' if '/src/' in pattern else '/specs/'
    return {path: show(commit, path) for path in listed if folder in path and path.endswith(suffix)}


def functions(commit):
    found = {}
    for path, text in tree(commit, 'crates/*/src/**/*.rt').items():
        text = places.plain(text)
        for match in re.finditer(r'pub fn (\w+)', text):
            f = places.Function(path, text, match)
            head = text[match.start():text.index('{', match.end())]
            signature = ' '.join(re.split(r'\b(?:requires|ensures)\b', head)[0].split()).replace(', )', ')').replace('( ', '(')
            clauses = [f'{kind} {{ {clause} }}' for kind, clause in f.clauses]
            found[f'{f.crate}::{f.name}'] = [signature.removeprefix('pub fn ')] + clauses
    return found


def definitions(commit):
    found = {}
    for path, text in tree(commit, 'crates/*/specs/**/*.antt').items():
        text = re.sub(r'--[^\n]*', '', text)
        for match in re.finditer(r'^(?:abbrev |unfoldable |  +)*pub (?:record |data |abbrev |unfoldable )*([^\s:({]+)[^\n]*(?:\n(?!(?:abbrev |unfoldable |pub |use |module|record |data |mutual))[^\n]+)*', text, re.M):
            name = match.group(1)
            if name in ('mod', 'use'):
                continue
            found.setdefault(f'{path.split("/")[1]}: {name}', []).append(' '.join(match.group(0).split()))
    return found


def compare(title, old, new):
    print(f'{title}\n')
    for name in sorted(set(old) | set(new)):
        before, after = old.get(name, []), new.get(name, [])
        if before == after:
            continue
        print(name + (' (new)' if not before else ' (gone)' if not after else ''))
        for line in before:
            if line not in after:
                print('  - ' + line)
        for line in after:
            if line not in before:
                print('  + ' + line)
    print()


if __name__ == '__main__':
    compare('Public functions', functions(sys.argv[1]), functions(None))
    compare('Definitions', definitions(sys.argv[1]), definitions(None))
