#!/usr/bin/env python3
"""Counts, in crates/*/src of a commit (or of the working tree, with no commit), the places that an older form of the language left.

    tools/places.py [COMMIT] [--list]

Each line of the output is one kind of place: its point, what is looked for, and how many there are; --list adds file and line."""
import re, subprocess, sys
from collections import defaultdict

commit = next((a for a in sys.argv[1:] if not a.startswith('-')), None)
listing = '--list' in sys.argv


def run(*args):
    return subprocess.run(args, capture_output=True, text=True, check=True).stdout


def sources():
    if commit:
        names = run('git', 'ls-tree', '-r', '--name-only', commit, 'crates').split()
        read = lambda n: run('git', 'show', f'{commit}:{n}')
    else:
        names = run('git', 'ls-files', 'crates').split()
        read = lambda n: open(n, encoding='utf-8').read()
    return {n: read(n) for n in names if re.search(r'/src/.*\.rt$', n)}


files = sources()


def without_comments(text):
    return re.sub(r'//[^\n]*', '', text)


def line_of(text, offset):
    return text.count('\n', 0, offset) + 1


def find(pattern, flags=re.M):
    return [(n, line_of(t, m.start()), m.group(0).strip().split('\n')[0]) for n, raw in files.items()
            for t in [without_comments(raw)] for m in re.finditer(pattern, t, flags)]


def functions():
    """Each function with a body: file, line, name, body."""
    for n, raw in files.items():
        text = without_comments(raw)
        for m in re.finditer(r'\bfn (\w+)', text):
            i, depth = m.end(), 0
            while i < len(text):
                # A clause is in braces too: it follows requires or ensures and its name.
                clause = re.match(r'\s*(requires|ensures)\*?( \w+)? \{', text[i:])
                if clause:
                    i += clause.end()
                    depth = 1
                    while depth:
                        depth += {'{': 1, '}': -1}.get(text[i], 0)
                        i += 1
                    continue
                if text[i] == ';':
                    break
                if text[i] == '{':
                    start, depth = i, 1
                    while depth:
                        i += 1
                        depth += {'{': 1, '}': -1}.get(text[i], 0)
                    yield n, line_of(text, m.start()), m.group(1), text[start:i + 1]
                    break
                i += 1


def twins():
    """Functions whose bodies are the same but for names, numbers and types, of at least 14 tokens."""
    shapes = defaultdict(list)
    words = {'match', 'if', 'else', 'for', 'in', 'return', 'let', 'mut', 'Some', 'None', 'Ok', 'Err', 'self', 'true', 'false'}
    for n, line, name, body in functions():
        tokens = re.findall(r"\w+|[<>=!]=|&&|\|\||[^\w\s]", body)
        shape = tuple('O' if t in {'|', '&', '+', '-', '*', '/', '<', '>', '<=', '>=', '==', '!='} else t if t in words or not re.match(r'\w', t)
                      else 'N' if t[0].isdigit() else 'I' for t in tokens)
        if len(shape) >= 14:
            shapes[shape].append((n, line, name))
    return [place for same in shapes.values() if len(same) > 1 for place in same]


def number_tables():
    """Functions that give each case of an enum its number."""
    return [(n, line, name) for n, line, name, body in functions() if re.match(r'\{\s*match self \{', body) and len(re.findall(r'=> (0x)?[0-9A-F]+,', body)) > 1]


def repeated_clauses():
    """Requires clauses that three functions or more have, with the names of their parameters taken away."""
    seen = defaultdict(list)
    for n, raw in files.items():
        text = without_comments(raw)
        for m in re.finditer(r'requires( \w+)? \{ (.*) \}$', text, re.M):
            seen[re.sub(r'\b[a-z_]\w*\.(old|now)\b', 'X', m.group(2))].append((n, line_of(text, m.start()), m.group(0)))
    return [place for same in seen.values() if len(same) > 2 for place in same]


looked_for = [
    ('1', 'an Option or a Result taken apart to be made again, or to be a default', find(r'^ *(None|Err\(\w+\)) => (None|Err\(|false|0\b|[A-Z_]{3,}|minus\()')),
    ('1', 'a let that returns None or a refusal', find(r'else \{\s*return (None|Err\()')),
    ('1', 'an optional refusal that is then returned as an Err', find(r'if let Some\(refusal\)')),
    ('1', 'an if that makes a Some or a None', find(r'\{\s*Some\([^{}]*\)\s*\} else \{\s*None\s*\}|\{\s*None\s*\} else \{\s*Some\([^{}]*(\{[^{}]*\})?\)\s*\}')),
    ('1', 'a table of numbers for the cases of an enum', number_tables()),
    ('1', 'a flag beside a value', find(r'let mut begun')),
    ('1', 'an own enum of two cases, one or both with a value', find(r'enum \w+(<K>)? \{\s*\w+(\([^)]*\))?,\s*\w+\([^)]*\),\s*\}')),
    ('2', 'functions of one shape', twins()),
    ('3', 'a loop over 0.. that indexes', find(r'for \w+ in 0\.\.')),
    ('3', 'a loop over enumerate', find(r'for .*\.enumerate\(\)')),
    ('3', 'a loop that is all, any, contains or position', find(r'for [^{]*\{\s*if [^{]*\{\s*return (true|false|\w+);\s*\}\s*\}')),
    ('3', 'a loop that is a fold', find(r'for [^{]*\{\s*\w+ = \w+\.wrapping_add')),
    ('4', 'equality by matches! or a match that answers true and false', find(r'matches!\(self|matches!\(reply|=> true,')),
    ('4', 'order or equality by a function', find(r'fn (is_below|is_same|lower_key)\b')),
    ('4', 'a conversion by a method', find(r'fn (from_number|from_codes|from_address|from_byte|number|code|class|pid|byte|bytes|to_bytes)\((self|&self|number|class|address|byte:)')),
    ('4', 'text put by hand', find(r'fn put_(decimal|hex|refusal|bytes|key|read_reply|reply|response|writing|answer|line)\b')),
    ('5', 'a buffer and the place in it', find(r'fn \w+\([^)]*: &mut \[u8\],\s*at: usize')),
    ('5', 'units and their bus', find(r'fn \w+\([^)]*: &mut \[Unit\],\s*bus: ')),
    ('5', 'fixtures and their mode', find(r'fn \w+\([^)]*: &mut \[Fixture\][^)]*mode: ')),
    ('5', 'a requires that three functions or more have', repeated_clauses()),
    ('6', 'an array and how much of it counts', find(r'\[\w+(<\w+>)?; \w+\],\s*(pub(\(crate\))? )?(len|count|depth|end): usize|&\'a mut \[\w+<K>\],\s*(pub(\(crate\))? )?count: usize', re.M)),
    ('6', 'a slice and how much of it counts', find(r'(memory: &(mut )?\[[^\]]*\]), count: usize')),
    ('6', 'parallel lists', find(r'fn \w+\([^)]*: &\[u64\],\s*widths: &\[u32\]')),
    ('7', 'an enum that says which function runs', find(r'enum (Gate|Kind)\b')),
]

for point, what, places in looked_for:
    print(f'{point}  {len(places):3}  {what}')
    if listing:
        for name, line, text in places:
            print(f'          {name}:{line}: {text}')
