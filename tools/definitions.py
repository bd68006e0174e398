#!/usr/bin/env python3
"""Brings docs/DEFINITIONS.md up to the definitions as they stand.

    definitions.py OLD NEW

OLD is a checkout of the commit at which the file was last true, NEW the tree to write. A definition that stands in OLD's table keeps its
sentence unless the comment above it changed; one that is new gets its comment as its sentence; one that OLD left out stays out. The part
in front, in the order in which the law is read, keeps its rows and gets new links where a definition moved."""
import glob
import os
import re
import sys

DEFINITION = re.compile(r'^(?:(?:unfoldable|abbrev)\s+)*pub\s+(?:(?:record|data|unfoldable|abbrev)\s+)*([A-Za-z_][\w-]*)')


def files(root):
    for path in sorted(glob.glob(root + '/crates/*/specs/*.antt')):
        crate, name = path.split('/')[-3], os.path.basename(path)[:-5]
        if name != 'Lib':
            yield (crate, name), open(path).read().split('\n')


def definitions(root):
    """Of each file its title, and its definitions with the comments above them."""
    found = {}
    for key, lines in files(root):
        title = lines[0][3:] if lines[0].startswith('-- ') else ''
        rows, comment = [], []
        for line in lines:
            if line.startswith('-- ') and not line.startswith('-- ----'):
                comment.append(line[3:].strip())
                continue
            name = DEFINITION.match(line)
            if name and name[1] not in ('mod', 'use'):
                rows.append((name[1], ' '.join(comment)))
            comment = []
        found[key] = (title, rows)
    return found


def sentence(text):
    text = text.strip()
    return text and text[0].upper() + text[1:] + ('' if text[-1] in '.!?' else '.')


def table_of(body):
    """The sentences of a written table, by crate and name."""
    rows, crate = {}, None
    for line in body.split('\n'):
        head = re.match(r'### crates/(\w+)/specs/', line)
        crate = head[1] if head else crate
        row = re.match(r'\| `([^`]+)` \| (.*) \|$', line)
        if row and crate:
            rows[crate, row[1]] = row[2]
    return rows


def linked(line, places):
    """A row of the part in front, with the link to where its definition stands now; none where it is gone."""
    row = re.match(r'\| `([^`]+)` \| (.*) \| \[(\w+)/(\w+)\]\(.*\) \|$', line)
    if not row or (row[3], row[4]) in places.get(row[1], []):
        return line
    here = places.get(row[1], [])
    if not here:
        print('gone:', row[1])
        return None
    crate, name = next((p for p in here if p[0] == row[3]), here[0])
    return '| `%s` | %s | [%s/%s](../crates/%s/specs/%s.antt) |' % (row[1], row[2], crate, name, crate, name)


def main(old_root, new_root):
    front, body = open(old_root + '/docs/DEFINITIONS.md').read().split('\n## al_base\n', 1)
    written = table_of('\n## al_base\n' + body)
    before = {(key[0], name): text for key, (_, rows) in definitions(old_root).items() for name, text in rows}
    places, out, last = {}, [], None
    for key, (title, rows) in definitions(new_root).items():
        shown = []
        for name, text in rows:
            places.setdefault(name, []).append(key)
            known = (key[0], name)
            if known in written and (not text or before.get(known) == text):
                shown.append((name, written[known]))
            elif text and (known in written or known not in before):
                shown.append((name, sentence(text)))
        if not shown:
            continue
        if key[0] != last:
            out.append('## %s\n' % key[0])
            last = key[0]
        out.append('### crates/%s/specs/%s.antt\n' % key)
        out += [sentence(title) + '\n'] if title else []
        out.append('| Definition | Meaning |\n|---|---|')
        out += ['| `%s` | %s |' % row for row in shown] + ['']
    lines = [linked(line, places) for line in front.split('\n')]
    with open(new_root + '/docs/DEFINITIONS.md', 'w') as text:
        text.write('\n'.join(line for line in lines if line is not None).rstrip('\n') + '\n\n' + '\n'.join(out).rstrip('\n') + '\n')


if len(sys.argv) != 3:
    sys.exit(__doc__)
main(sys.argv[1], sys.argv[2])
