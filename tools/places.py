#!/usr/bin/env python3
"""Counts the places of each point of docs/DESIGN-PASS.md in crates/*/src, at whatever commit the checkout has.

usage: tools/places.py [-v]      with -v each place is printed below its count
"""
import glob
import os
import re
import sys

os.chdir(os.path.join(os.path.dirname(os.path.abspath(__file__)), '..'))
lines, functions = [], []
for path in sorted(glob.glob('crates/*/src/**/*.rt', recursive=True)):
    text = open(path, encoding='utf-8').read()
    code = [(k + 1, l) for k, l in enumerate(text.split('\n')) if not re.match(r'\s*(//|ghost use)', l)]
    lines += [(path, k, l) for k, l in code]
    for m in re.finditer(r'\bfn (\w+)(?:<[^{}()]*>)?\(', text):
        depth, end = 1, m.end()
        while depth:
            depth += {'(': 1, ')': -1}.get(text[end], 0)
            end += 1
        parameters = [p.strip() for p in re.split(r',(?![^\[<(]*[\]>)])', text[m.end():end - 1]) if p.strip()]
        rest = text[end:]
        head = rest[:(re.search(r'\n\s*\{\n|;\n|\{', rest) or re.search(r'$', rest)).start()]
        functions.append((path, text.count('\n', 0, m.start()) + 1, m.group(1), parameters, head))


def found(pattern, without=None):
    return [(p, k, l.strip()) for p, k, l in lines if re.search(pattern, l) and not (without and re.search(without, p + l))]


def functions_with(test):
    return [(p, k, f) for p, k, f, ps, head in functions if test(f, ps, head)]


def named(words):
    return functions_with(lambda f, ps, head: re.fullmatch(words, f))


fixed = r': (&(\'\w+ )?(mut )?)?\[\w+; [A-Z]+\]'
points = [
    ('1a', 'cases that hold the number of a refusal', found(r'\bRefused\(u32\)')),
    ('1b', 'other enums of the shape of Option or Result', found(r'\benum (Responsible|Ect|Turn|Counted|Asked|Reading|StartBound|Effect)\b')),
    ('1c', 'flags and numbers beside values', found(r'^ +(pub )?(some|known|valid|more|made): bool,|^ +pub number: u32,')),
    ('1d', 'functions that answer the number of a refusal, and tests of it', functions_with(
        lambda f, ps, head: re.fullmatch(r'\w*_refusal|\w+_number', f) and '-> u32' in head) + found(r'number [!=]= 0')),
    ('1e', 'constants for kinds and refusals', found(r'pub const [A-Z_]+: [iu]32 = \d+;')),
    ('2', 'functions with a twin', named(
        r'(min|max)(64)?|upheap(_bars)?|load|store(_bars)?|put(_bars)?|join|responsible_index_\w+|mirror_(posts|atoms)|moved_(on|back)|stored_(start|latest)'
        r'|(past|before)_bar|store_(starts|latest)|tighten_\w+_bound|without_(lower|upper)|first_from|last_up_to|step_(up|down)|preceding|attaining'
        r'|(task|bound|variable|kind|value)_at|(task|bound)_word|first_atom|atom_count|answer_input|answer_all|run_answer|count_answer|start_answer')),
    ('3', 'loops by while', found(r'^\s*while ')),
    ('4', 'comparison, order and conversion by hand', named(r'le|eq|min|max|min64|max64|wide|at_most|both|either|one_if|with_place|place_of|comparison_of|makes_hole|nat_of|word_of|is_white')),
    ('5', 'functions with eight parameters or more', functions_with(lambda f, ps, head: len(ps) >= 8)),
    ('6a', 'arrays in structs, with a count beside them', found(r'^ {4}(pub )?\w+: \[\w+; [A-Z]+\],$')),
    ('6b', 'functions that take an array and how much of it counts', functions_with(
        lambda f, ps, head: any(re.search(fixed, p) for p in ps) and any(re.fullmatch(r'(n|count|to): usize', p) for p in ps))),
    ('6c', 'functions that take a buffer and a place in it', functions_with(
        lambda f, ps, head: 'out: &mut [u8]' in ps and any(re.fullmatch(r'(at|n): usize', p) for p in ps))),
    ('7', 'enums that say which step to take', found(r'\benum (Direction|Side|Run|PDescent|EctBarDescent)\b')),
]
for point, what, places in points:
    print(f'{point:3} {what}: {len(places)}')
    if '-v' in sys.argv[1:]:
        for path, line, text in places:
            print(f'      {path}:{line} {text}')
answers = glob.glob('crates/*/proofs/**/Answers.antt', recursive=True)
proofs = glob.glob('crates/*/proofs/**/*.antt', recursive=True)
print(f'8   files of answers: {len(answers)}; lines of proofs: {sum(len(open(p, encoding="utf-8").read().splitlines()) for p in proofs)}')
