#!/usr/bin/env python3
"""Counts the places of each point of docs/DESIGN-PASS.md in crates/*/src.

usage: places.py [--list] [FOLDER]

FOLDER holds crates/ (the top of a checkout; by default the one that this file is in). --list prints each place.
"""
import collections
import glob
import os
import re
import sys

listing = '--list' in sys.argv
rest = [a for a in sys.argv[1:] if a != '--list']
top = rest[0] if rest else os.path.join(os.path.dirname(os.path.abspath(__file__)), '..')
os.chdir(top)

# ---- what the sources say: functions with their heads, enums and structs with what they hold

Function = collections.namedtuple('Function', 'where name head body')
Type = collections.namedtuple('Type', 'where kind name parts')
functions, types, lines = [], [], []
for path in sorted(glob.glob('crates/*/src/*.rt')):
    text = open(path).read()
    short = path.replace('crates/', '').replace('/src', '')
    code = [re.sub(r'//.*', '', line) for line in text.split('\n')]
    lines += [(f'{short}:{i + 1}', line) for i, line in enumerate(code)]
    text = '\n'.join(code)
    for m in re.finditer(r'^( *)(?:pub )?(?:extern "C" )?fn (\w+)', text, re.M):
        head = re.search(r'^%s\{|\)[^;]*?\{$|;$' % m.group(1), text[m.end():], re.M)
        cut = m.end() + (head.end() if head else 0)
        end = re.search(r'^%s\}' % m.group(1), text[cut:], re.M)
        number = text[:m.start()].count('\n') + 1
        functions.append(Function(f'{short}:{number}', m.group(2), text[m.start():cut], text[cut:cut + end.end()] if end else ''))
    for m in re.finditer(r'^(?:pub )?(enum|struct) (\w+)[^{;]*\{\n(.*?)^\}', text, re.M | re.S):
        number = text[:m.start()].count('\n') + 1
        parts = re.findall(r'^    (?:pub )?(\w+)(.*?),?$', m.group(3), re.M)
        types.append(Type(f'{short}:{number}', m.group(1), m.group(2), parts))


def report(point, what, places):
    print(f'{point}  {len(places):3}  {what}')
    if listing:
        for place in places:
            print(f'            {place}')


# ---- 1

shaped = [f'{t.where} {t.name}' for t in types if t.kind == 'enum' and len(t.parts) == 2 and any(p[1] for p in t.parts)]
report('1a', 'enums of two variants of which one holds a value', shaped)
# structs of flags alone hold no value beside them, and `listed` is an answer about a pair that is there either way
flags = [f'{t.where} {t.name}.{n}' for t in types if t.kind == 'struct' and any(': bool' not in rest for _, rest in t.parts)
         for n, rest in t.parts if n != 'listed' and re.match(r': (bool|Admission|Result<\(\), Refusal>)$', rest) or (n, rest) == ('ended', ': u8')]
report('1b', 'a flag, or whether it is refused, beside a value', flags)
kinds = [f'{f.where} {f.name}' for f in functions if re.match(r'kind_of|refusal_number|refusal_returned|number$|returned$', f.name) and '->' in f.head
         and re.search(r'-> u(size|32|8)', f.head)]
kinds += [f'{t.where} {t.name}.{n}' for t in types for n, rest in t.parts if n in ('above', 'gap_count') and re.match(r': u', rest)]
report('1c', 'a number for a kind or a refusal', kinds)

# ---- 2

groups = collections.defaultdict(list)
for f in functions:
    plain = re.sub(r'(joshkamber_)|_?(windows?|timetable|fixed_train|train|order|orders|pairs|times)(?=_|$)', lambda m: m.group(1) or '', f.name)
    if plain != f.name and re.search(r'windows?|timetable', f.name):
        crate = f.where.split('/')[0]
        groups[crate, plain].append(f)
twins = [', '.join(f'{f.where} {f.name}' for f in fs) for fs in groups.values() if len(fs) > 1]
report('2a', 'functions of one crate that differ only in the form', twins)
pairs = [{'larger', 'smaller'}, {'smaller'}, {'greatest_outside', 'least_on'}, {'first_pairs', 'first_orders', 'first_times'}, {'have_room'},
         {'none_above'}, {'places_behind', 'since_behind', 'latest_behind'}, {'no_orders', 'no_trains', 'no_windows'},
         {'with_order', 'with_train', 'with_fixed_train', 'with_window'}, {'order_tests', 'train_tests', 'fixed_train_tests', 'window_tests', 'gap_tests'},
         {'pair_line', 'time_line', 'order_line'}]
others = []
for names in pairs:
    found = [f'{f.where} {f.name}' for f in functions if f.name in names]
    if len(found) > 1:
        others.append(', '.join(found))
report('2b', 'other functions that are alike', others)
alike = collections.defaultdict(list)
for t in types:
    if t.kind == 'struct':
        alike[re.sub(r'^(Window|Windows|Timetable)', '', t.name) if re.match(r'Window|Timetable', t.name) else t.name].append(f'{t.where} {t.name}')
report('2c', 'structs that differ only in the form', [', '.join(x) for x in alike.values() if len(x) > 1])

# ---- 3

report('3', '`while` loops', [f'{w} {x.strip()}' for w, x in lines if re.match(r'\s*while ', x)])

# ---- 4

by_hand = r'larger|smaller|one_of|waited_for|size_of|from_windows|from_timetable|to_windows|to_timetable|cause_of|cause_in|listing_of|choice_of|bound_of|check_of|start_of' \
    r'|round_of|refusal_number|refusal_returned'
report('4a', 'comparisons and conversions by hand', [f'{f.where} {f.name}' for f in functions if re.fullmatch(by_hand, f.name)])
report('4b', 'equality as two comparisons', [f'{w} {x.strip()}' for w, x in lines if re.search(r'\((\w+) <= (\w+)\) & \(\2 <= \1\)', x)])
report('4c', 'bytes as numbers', [f'{w} {x.strip()}' for w, x in lines if re.search(r'(?<![\w.])(44|45|48|57|65|68|69|76|80|82|88|90|10)\)|== (10|44|45|48|88)\b|48 \+|- 48\b', x)
                                  and re.search(r'put\(|in_range|==|48', x)])

# ---- 5

heads = [(f, re.sub(r'\s+', ' ', f.head)) for f in functions]
for fact, pattern in (('`Admitted (sheet_of sheet)`', r'requires[^{]*\{[^}]*Admitted \(sheet_of'), ('no more than the most orders', r'requires[^{]*\{[^}]*≤ order_counts\.most'),
                      ('no more than the most trains', r'requires[^{]*\{[^}]*≤ train_counts\.most'), ('`UpTo`', r'requires[^{]*\{[^}]*UpTo'),
                      ('`Counted`', r'requires[^{]*\{[^}]*(Counted|Riding)'), ('`Few (sheet_of sheet)`', r'requires[^{]*\{[^}]*Few \(sheet_of')):
    report('5a', f'functions that ask {fact}', [f'{f.where} {f.name}' for f, head in heads if re.search(pattern, head)])
for what, words in (('out, place, writing', ('out: &mut', 'place:', 'writing:')), ('trains and riders', ('train: &mut', 'riders: &mut')),
                    ('orders, release, latest, train', (r'n: usize', 'release:', 'train:')), ('the three areas', ('pairs: &', 'train_of_order: &', 'times: &'))):
    report('5b', f'functions with {what}', [f'{f.where} {f.name}' for f, head in heads if all(w in head for w in words)])

# ---- 6

report('6a', 'structs with a count and arrays beside it', [f'{t.where} {t.name}' for t in types if t.kind == 'struct' and any('count' in n or n == 'pairs' for n, _ in t.parts)
                                                        and any(re.match(r': \[', rest) for _, rest in t.parts)])
report('6b', 'functions of a whole array and how much of it counts', [f'{f.where} {f.name}' for f, head in heads
                                                                     if re.search(r'\b[nq]: (usize|u8)', head) and re.search(r'\[u\d+; \w+\]', head)])

# ---- 7

report('7', 'matches on the form', [f'{w} {x.strip()}' for w, x in lines if re.search(r'match (sheet\.)?(columns\.)?form\b', x)])

# ---- 8

proofs = glob.glob('crates/*/proofs/**/*.antt', recursive=True)
report('8', 'files of answers and invariants', [p for p in proofs if os.path.basename(p) in ('Answers.antt', 'Invariants.antt', 'Proof.antt')])
