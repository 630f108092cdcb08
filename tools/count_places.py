#!/usr/bin/env python3
"""Candidates for each point of docs/DESIGN-PASS.md, in src/ of a commit: tools/count_places.py [-l] [COMMIT]

Without COMMIT it reads the checkout. With -l it lists the lines too. What a line is (a place, or no place)
is judged by reading; the page has the judgement.
"""
import re
import subprocess
import sys
from collections import defaultdict
from pathlib import Path

args = [a for a in sys.argv[1:] if a != '-l']
listing = '-l' in sys.argv[1:]


def git(*words):
    return subprocess.run(['git', *words], capture_output=True, text=True, check=True).stdout


def sources(ending):
    """Path and text of each file of the crates with this ending."""
    if args:
        for path in git('ls-tree', '-r', '--name-only', args[0], 'crates').split():
            if path.endswith(ending):
                yield path, git('show', f'{args[0]}:{path}')
    else:
        for path in sorted(Path('crates').rglob(f'*{ending}')):
            if '/out/' not in str(path) and '/target/' not in str(path):
                yield str(path), path.read_text()


code = [(p, t) for p, t in sources('.rt') if '/src/' in p]
proofs = [(p, t) for p, t in sources('.antt') if '/proofs/' in p]


def lines(pattern):
    found = []
    for path, text in code:
        for number, line in enumerate(text.split('\n'), 1):
            if re.search(pattern, line.split('//')[0]):
                found.append(f'{path}:{number}: {line.strip()}')
    return found


def report(name, found):
    print(f'{len(found):4} {name}')
    if listing:
        for line in found:
            print(f'       {line}')


def functions():
    """Crate, name, parameters and clauses of each function."""
    for path, text in code:
        for m in re.finditer(r'\bfn (\w+)(?:<[^>]*>)?\(((?:[^(){}]|\([^()]*\))*)\)([^{;]*?(?:\n\s*(?:requires|ensures)[^\n]*(?:\n\s{8,}\([^\n]*)*)*)\n?\s*[{;]', text):
            yield path, m.group(1), m.group(2), m.group(3)


report('1 an Option or Result taken apart to be given on',
       lines(r'return None;|=> None,|Some\(.*\) => Some\(|Err\(\w+\) => return Err|Err\(_\) => Err|=> Err\(\w+\.1\)|\{ None \}$'))
report('1 a let .. else', lines(r'let (Some|Ok)\(.*\) = .* else \{'))
report('1 a result that is a number or a flag', lines(r'\) -> (bool|u8|u16|u32|usize)\b'))
report('3 a while, or a loop', lines(r'^\s*(while|loop|\'\w+: loop)\b'))
report('3 a for over numbers', lines(r'\bfor \w+ in [^{]*\.\.'))
report('3 an element named by a counter', lines(r'\w\[(i|j|v|p|c|2 \* i|i as usize|v as usize|from \+ j|v \* k \+ j|order\[i\] as usize)\]'))
report('4 a conversion, test or printing by hand',
       lines(r'fn (number|says|same_size|word|print_bytes|from_u32|from_i32|from_four|left|count|print_refusal|show_\w+)\b'))
report('6 a length beside a buffer, a part beside its parallel part',
       lines(r'^\s*(pub(\(crate\))? )?(len|n|head|next|table|degree|marks): (&|usize)'))
report('7 a switch on a stage, a function pointer, a dyn', lines(r'match (self\.)?stage|\bdyn\b|: fn\('))

facts = defaultdict(set)
groups = defaultdict(set)
for path, name, params, clauses in functions():
    crate = path.split('/')[1]
    for clause in re.findall(r'(?:requires|ensures) \w* ?\{ (.*) \}', clauses):
        facts[crate, clause].add(f'{path}:{name}')
    names = re.findall(r'(\w+): ', params)
    for a in range(len(names)):
        for b in range(a + 3, len(names) + 1):
            groups[crate, tuple(names[a:b])].add(f'{path}:{name}')
report('5 a clause that stands in three functions or more', [f'{k[0]}: {k[1]} ({len(v)})' for k, v in sorted(facts.items()) if len(v) > 2])
most = {k: v for k, v in groups.items() if len(v) > 2}
report('5 three parameters or more that three functions or more take',
       [f'{k[0]}: {", ".join(k[1])} ({len(v)})' for k, v in sorted(most.items())
        if not any(set(k[1]) < set(o[1]) and k[0] == o[0] and v <= w for o, w in most.items())])

answers = [t for p, t in proofs if p.endswith('/Answers.antt')]
lemmas = [t for p, t in proofs if p.count('/') == 3]
print(f"{sum(len(re.findall(r'^pub ', t, re.M)) for t in answers):4} 8 answers, in {sum(t.count(chr(10)) for t in answers)} lines")
print(f"{sum(len(re.findall(r'^(?:  )?pub ', t, re.M)) for t in lemmas):4} 8 lemmas that others cite, in {sum(t.count(chr(10)) for t in lemmas)} lines of lemma files")
