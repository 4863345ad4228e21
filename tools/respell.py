#!/usr/bin/env python3
"""Spells the names that this repository's own .antt files declare in snake case: allAtMost is all_at_most, place-head is place_head.

usage: tools/respell.py [--check] [--table FILE] [ROOT]

Run once, after the port of the toolchain, over crates/: .antt files whole, the clauses and ghost items of .rt files, the texts of must-fail edits.
Types, modules and records keep their camel case. Names of Rust, of the libraries and of what the toolchain generates stay. A law that would get
the name of a definition, or of another law that came by it first, ends in _lem: respell.tsv beside this script has these, and THERE below.
--check writes nothing and lists what would fall together; --table writes the rows OLD NEW that were turned.
"""
import argparse
import os
import re
from collections import defaultdict

NAME = r"[^\s(){}.;,@\"«»`]+"
HEAD = re.compile(r"^(?:\s*)(?:abbrev |unfoldable |opaque )*(?:pub )?(" + NAME + r") :(?: |$)")
TYPE = re.compile(r"^\s*(?:abbrev |unfoldable |opaque )*(?:pub )?(?:record|data|module|mod) ")
USE = re.compile(r"^\s*(?:pub |ghost )*use ([^\s;{]+?)\.?\{([^}]*)\}", re.M)
QUIET = r"//[^\n]*|\"(?:[^\"\\\n]|\\.)*\"|«[^»]*»|"
# What the rule does not turn, in these files alone: a record; a law whose type stands on the next line; laws that the kit's script had in
# snake case already and that would fall together with a definition.
THERE = {
    'Located-at': ('LocatedAt', ['vtk_reader/proofs/Theorems.antt']),
    'sf-keep-crust-one': ('sf_keep_crust_one', ['sporeferry/proofs/Theorems.antt']),
    'is_leaf': ('is_leaf_lem', ['octants/proofs/Rounds.antt', 'octree_cells/proofs/OneLeaf.antt', 'octree_cells/proofs/Shell.antt']),
    'numbers_after': ('numbers_after_lem', ['components/specs/Example.antt', 'pieces/specs/Example.antt', 'representatives/specs/Example.antt']),
    'in_order': ('in_order_lem', ['marked/proofs/Theorems.antt']),
    'read_number': ('read_number_lem', ['file_steps/proofs/Theorems.antt', 'vtk_reader/proofs/']),
    'too_fine': ('too_fine_lem', ['octree_cells/proofs/Shell.antt']),
    'is_digit': ('is_digit_lem', ['decimal/proofs/Counts.antt']),
}


def read(path):
    with open(path, encoding='utf-8') as f:
        return f.read()


def sources(root):
    """Every file that is looked at, with its text."""
    out = {}
    for folder, below, names in os.walk(os.path.join(root, 'crates')):
        below[:] = sorted(b for b in below if b != 'out')
        for name in sorted(names):
            if name.endswith(('.antt', '.rt', '.edit')):
                out[os.path.join(folder, name)] = read(os.path.join(folder, name))
    return out


def declared(text):
    """The names that .antt files declare, walks aside, and the files that declare each."""
    out = defaultdict(set)
    for path in text:
        if path.endswith('.antt') and not path.endswith('/Proof.antt'):
            for line in text[path].split('\n'):
                found = HEAD.match(line)
                if found and not TYPE.match(line) and not line.strip().startswith('--'):
                    out[found.group(1)].add(path)
    return out


def imported(text, crates):
    """For each file the names that it takes from a library, which stay there."""
    out = defaultdict(set)
    for path in text:
        for module, names in USE.findall(text[path]):
            if not (module.startswith('Rattle.') and module.split('.')[1] in crates):
                out[path].update(n.split(' as ')[-1].strip() for n in names.split(','))
    return out


def spelled(own):
    """The rows: each name that turns, with what it turns to."""
    by_hand = dict(line.split() for line in read(os.path.join(os.path.dirname(os.path.realpath(__file__)), 'respell.tsv')).splitlines() if line)
    turns = [n for n in own if re.fullmatch(r"[a-z0-9][\w'-]*", n) and re.search(r"-|[a-z0-9][A-Z]", n)]
    words = {n: re.sub(r"(?<=[a-z0-9₀-₉])[A-Z]", lambda m: '_' + m[0].lower(), n) for n in turns}
    return {n: by_hand.get(n, re.sub('-+', '_', words[n])) for n in turns}


def turned(path, text, rows, stay):
    """The text of a file with its names turned; in comments only what stands in backquotes or in camel case."""
    def word(m):
        w = m.group(0)
        if w in THERE and any('crates/' + p in path for p in THERE[w][1]):
            return THERE[w][0]
        return rows[w] if w in rows and w not in stay else w

    def part(m):
        w = m.group(0)
        if w.startswith(('"', '«')):
            return w
        if w.startswith(('--', '//')):
            w = re.sub(r"`[^`]+`", lambda k: re.sub(NAME, word, k.group(0)), w)
            return re.sub(r"(?<![\w-])[a-z][a-z0-9]*[A-Z]\w*(?![\w-])", word, w)
        return word(m)

    comment = '' if path.endswith(('.rt', '.edit')) else r"--[^\n]*|"
    return re.sub(comment + QUIET + NAME, part, text)


def told(root, text, own, rows, libraries):
    """What would fall together: own names with one another, and with a library's."""
    by_new = defaultdict(set)
    for name in own:
        by_new[rows.get(name, name)].add(name)
    for new, olds in sorted(by_new.items()):
        if len(olds) > 1:
            print('together:', new, {o: sorted(os.path.relpath(p, root) for p in own[o])[:6] for o in sorted(olds)})
    for path in text:
        met = {rows[w] for w in set(re.findall(NAME, text[path])) if w in rows} & libraries[path] | {n for n in libraries[path] if n in rows}
        if met:
            print('a library\'s too, in', path, sorted(met))


def main():
    asked = argparse.ArgumentParser()
    asked.add_argument('--check', action='store_true')
    asked.add_argument('--table')
    asked.add_argument('root', nargs='?', default='.')
    asked = asked.parse_args()
    text = sources(asked.root)
    own = declared(text)
    libraries = imported(text, set(os.listdir(os.path.join(asked.root, 'crates'))))
    rows = spelled(own)
    if asked.check:
        told(asked.root, text, own, rows, libraries)
        return
    changed = {p: t for p, t in ((p, turned(p, text[p], rows, libraries[p])) for p in text) if t != text[p]}
    for path, new in changed.items():
        with open(path, 'w', encoding='utf-8') as f:
            f.write(new)
    if asked.table:
        with open(asked.table, 'w', encoding='utf-8') as f:
            f.writelines('%s\t%s\n' % row for row in sorted(rows.items()))
    print(len(rows), 'names,', len(changed), 'files')


main()
