#!/usr/bin/env python3
"""Lists the places in src/ where the code may read like an older Rattle, by point of docs/DESIGN-PASS.md.

  python3 tools/places.py [POINT ..] [--count]      all points, or these; --count prints the numbers alone

It reads crates/*/src/*.rt below the current folder. Points 1 and 3 to 7 go by lines that match a pattern, point 2 by
functions and structs that are alike once types, constants and numbers are left out.
"""
import difflib
import glob
import re
import sys

PATTERNS = {
    1: [
        ('own enums', r'^\s*(pub(\(crate\))? )?enum '),
        ('flags in structs, tuples and parameters', r'^(?!.*\bfn [a-z_]+.*-> (bool|Option<bool>|Result<bool)).*\b(\w+: bool\b|\(bool,)'),
        ('numbers for kinds and refusals', r'\b(sort|code)s?: u\d+|\bnumber: u8|Refused\(u8\)|fn \w*number\w*\([^)]*\) -> u8|^\s*[\w:"]+ => \d+,$|^\s*(pub )?enum .*= \d'),
        ('options and results taken apart by hand', r'let (Some|Ok)\(.*\) = .* else \{|None => (Err|None|return|Ok\(None)|Err\(_\) => (Err|None|return)|Some\((\w+)\) => Ok\(\2\)|Ok\((\w+)\) => \w+::|Err\((\w+)\) => \w+::|Err\(AllocError\)'),
    ],
    3: [
        ('ranges and while', r'\bfor \w+ in [^ ]*\.\.[^ ]* \{|\bwhile '),
        ('enumerate', r'\.enumerate\(\)'),
        ('counters beside a loop', r'(\b(count|number|calls|agreeing|histories|tests) \+= 1|(\w+) = \3\.saturating_add\(1\))'),
        ('first place that passes a test', r'^\s*return (i|Some\(i\));'),
    ],
    4: [
        ('impl of a trait of the library', r'^impl.*\b(Display|From<.*>|TryFrom<.*>|FromStr|PartialEq|Ord|Clone|Copy) for '),
        ('functions that convert, name or compare', r'\bfn (\w+_of|of|axis|opposite|join|sort|read_kind|answer_of|flaw_number|\w+_name|\w+_word|number_below|code_of|kind_of|sort_of|fault)\('),
    ],
    5: [
        ('hulls stay grown', r'ensures .*Grown H'),
        ('the table stays lent', r'ensures .*ghost_name'),
        ('three numbers in range', r'(requires|ensures) .*Within'),
        ('words and entries together', r'input: &mut Words, entries: &mut Entries'),
        ('heap and text together', r'fn push_\w+\(|^\s*text: &mut String,'),
        ('places and lists together', r'^\s*places: usize,$'),
        ('moved and standing together', r'moved: &H, standing: &H'),
        ('section and count of words', r'ensures .*section \{ input\.new\.section|ensures section \{ self\.new\.section'),
    ],
    6: [
        ('length beside a buffer', r'^\s*(pub(\(crate\))? )?(len|closed|used): usize,'),
        ('parallel lists', r'^\s*(pub(\(crate\))? )?(requests|calls|answers|blames|expected|replies|lists): (Vec<|&(mut )?\[)'),
        ('index by hand', r'\w+\[(i|at|k|count|number|from\.\.to)\] ?(=|;|$)'),
        ('tables by place', r'^const \w+: \[.*; (\d\d+|FIXED_COUNT)\] = \['),
    ],
    7: [
        ('a kind chosen', r'::<(Box|Many|Ball)Hull>'),
        ('a step chosen', r'^\s*\w+::\w+ => .*\w+::<H>\('),
    ],
}


def lines(pattern):
    for path in sorted(glob.glob('crates/*/src/*.rt')):
        for n, line in enumerate(open(path), 1):
            if line.lstrip().startswith('//') or line.startswith('ghost '):
                continue
            if re.search(pattern, line):
                yield f'{path}:{n}: {line.strip()}'


def bodies():
    for path in sorted(glob.glob('crates/*/src/*.rt')):
        text = re.sub(r'//.*', '', open(path).read())
        for m in re.finditer(r'\bfn (\w+)|\bstruct (\w+)', text):
            at = text.find('{', m.end())
            if at < 0:
                continue
            if m.group(1):
                brace = re.search(r'^[ \t]*\{\s*$|\) (-> [^{\n]+ )?\{\s*$', text[m.end():], re.M)
                if not brace:
                    continue
                at = text.index('{', m.end() + brace.start() + brace.group().rfind('{'))
            depth, end = 0, at
            for end in range(at, len(text)):
                depth += {'{': 1, '}': -1}.get(text[end], 0)
                if depth == 0:
                    break
            body = re.sub(r'ghost \w+: \{[^\n]*', '', text[at:end + 1])
            words = re.findall(r'\w+|[^\w\s]', body)
            yield (f'{path}: {m.group(1) or m.group(2)}', bool(m.group(1)),
                   ['_' if re.match(r'[A-Z0-9]|[iu]\d+$|true$|false$', w) else w for w in words])


def twins():
    every = list(bodies())
    for i, (a, fa, wa) in enumerate(every):
        for b, fb, wb in every[i + 1:]:
            if fa != fb or min(len(wa), len(wb)) < (18 if fa else 9):
                continue
            if not 0.75 < len(wa) / len(wb) < 1.34:
                continue
            alike = difflib.SequenceMatcher(None, wa, wb, autojunk=False).ratio()
            if alike >= 0.86:
                yield f'{a} ~ {b} ({alike:.2f})'


def main():
    points = [int(a) for a in sys.argv[1:] if a.isdigit()] or [1, 2, 3, 4, 5, 6, 7]
    for point in points:
        groups = [('alike', list(twins()))] if point == 2 else [(name, list(lines(p))) for name, p in PATTERNS[point]]
        print(f'point {point}: {sum(len(found) for _, found in groups)}')
        for name, found in groups:
            print(f'  {name}: {len(found)}')
            if '--count' not in sys.argv:
                for line in found:
                    print(f'    {line}')


main()
