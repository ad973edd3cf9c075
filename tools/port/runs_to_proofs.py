#!/usr/bin/env python3
"""runs_to_proofs: the theorems of the tables of runs move from specs/ to proofs/laws, statements unchanged.

An edit of a definition counts as BAD while a theorem that stands in specs/ breaks with it; one that breaks a law in proofs/ is refused.
Run once at the top of the repository, after laws_to_proofs.py.
"""
import re

# the table, the first line of what moves, what a proof has to open that is not pub yet, and what the new page is
TABLES = [
    ('code', 'Samples', 'every : List Row', [], 'The sample strands of SPECIFICATION.md, of the definitions: one proof that covers every row.'),
    ('code', 'Runs', '-- every run gives', [], 'The runs of the reading steps, of the definitions: one proof that covers every run.'),
    ('scan', 'ScanRuns', 'pub runs_right', ['all'], 'The runs of the search, of the definitions: one proof that covers every run.'),
]
WORD = r"[^\s(){};,.]+"


def read(path):
    with open(path, encoding='utf8') as f:
        return f.read()


def write(path, text):
    with open(path, 'w', encoding='utf8') as f:
        f.write(text)


def kept(use, text):
    """An import line with the names that a text has; None where it has none of them."""
    m = re.match(r'(use [\w.]+)\.\{(.*)\}$', use)
    names = [n for n in m[2].split(', ') if re.search(r'(?<![^\s(){};,.])' + re.escape(n.replace('◌', '')) + r'(?![^\s(){};,.])', text)]
    return f"{m[1]}.{{{', '.join(names)}}}" if names else None


for crate, table, first, opened, what in TABLES:
    path = f'crates/{crate}/specs/{table}.antt'
    text = read(path)
    for name in opened:
        text = text.replace(f'\nabbrev {name} :', f'\nabbrev pub {name} :')
    at = text.index('\n' + first) + 1
    stays, moves = text[:at].rstrip('\n') + '\n', text[at:]
    uses = [l for l in stays.split('\n') if l.startswith('use ')]
    own = re.findall(r'(?m)^(?:abbrev |unfoldable |pub |data |record )*(' + WORD + r') (?:\([^)]*\) )*: ', stays)
    here = [n for n in dict.fromkeys(own) if re.search(r'(?<![^\s(){};,.])' + re.escape(n) + r'(?![^\s(){};,.])', moves)]
    body = '\n'.join(l for l in stays.split('\n') if not l.startswith('use '))
    head = [k for k in (kept(u, moves) for u in uses) if k] + [f"use Rattle.{crate}.specs.{table}.{{{', '.join(here)}}}"]
    write(path, '\n'.join(k for k in (kept(l, body) if l.startswith('use ') else l for l in stays.split('\n')) if k is not None))
    write(f'crates/{crate}/proofs/laws/{table}.antt', f'-- {what}\n' + '\n'.join(head) + '\n\n' + moves)
    lib = f'crates/{crate}/proofs/laws.antt'
    write(lib, read(lib).rstrip('\n') + f'\npub mod {table}\n')
