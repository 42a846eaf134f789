#!/usr/bin/env python3
"""Compares the verdicts on models with those of a second program, written apart from the crates over docs/PARTS.md.

    tools/model_reference.py [COUNT [SEED]]        COUNT changed parts and as many graphs of workplans, 2000 and 1 if not given

No program checks models yet, so a small one is made in a scratch repository beside a copy of the crates. It is not part of
the gate, and is skipped where rt is missing. Run it at the top of the repository.
"""
import os
import random
import re
import shutil
import subprocess
import sys
import tempfile
from fractions import Fraction

CRATES = ['sn_geom', 'sn_lex', 'sn_p21', 'sn_entity', 'sn_model', 'sn_refs']
HEAD = 'ISO-10303-21;HEADER;FILE_DESCRIPTION();FILE_NAME();FILE_SCHEMA();ENDSEC;DATA;\n'
FOOT = 'ENDSEC;END-ISO-10303-21;\n'

PROGRAM = r'''//! The verdict on each part text of a file, whose texts are parted by lines of three equals signs.
#![tactic(auto)]

use sn_model::build;
use sn_p21::read_file;
use sn_refs::check;
use std::env;
use std::fs;
use std::io;

fn tell(rt: &HostRuntime, text: &str) -> io::Result<()> {
    let alloc = rt.alloc();
    let Ok(file) = read_file(alloc, text.as_bytes()) else {
        println!(rt; "no part text")?;
        return Ok(());
    };
    match build(alloc, &file) {
        Ok(model) => match check(alloc, model) {
            Ok(checked) => println!(rt; "sound {}", checked.project())?,
            Err(fault) => println!(rt; "{fault:?}")?,
        },
        Err(fault) => println!(rt; "{fault:?}")?,
    }
    Ok(())
}

fn main(rt: HostRuntime) -> io::Result<()> {
    let Ok(args) = env::args(&rt) else {
        return Ok(());
    };
    for arg in args.skip(1) {
        let text = fs::read_to_string(&rt, arg.as_str())?;
        for piece in text.as_str().split("===\n") {
            tell(&rt, piece)?;
        }
    }
    Ok(())
}
'''


def table():
    """The rows of docs/PARTS.md: of each number its reads (place, kind, whether nothing may stand), and of each keyword its row."""
    reads, keywords = {}, {}
    for line in open('docs/PARTS.md'):
        found = re.match(r'\| ([0-9, to]+) \| ([A-Z0-9_, ]+) \| (.*) \|$', line)
        if not found:
            continue
        numbers = [int(n) for n in re.findall(r'\d+', found.group(1))]
        if 'to' in found.group(1):
            numbers = list(range(numbers[0], numbers[1] + 1))
        row = []
        for read in [] if found.group(3) == 'none' else found.group(3).split(';'):
            place, kind = read.split()[0], read.split()[-1]
            row.append((int(place), kind.rstrip('?'), kind.endswith('?')))
        for number, keyword in zip(numbers, found.group(2).split(', ')):
            reads[number], keywords[keyword] = row, number
    return reads, keywords


READS, KEYWORDS = table()
GROUPS = {
    'exec': {2, 3, 5}, 'feat': set(range(10, 14)), 'op': set(range(15, 20)), 'tool': {20, 21}, 'body': {22, 23},
    'surf': {29, 30}, 'len': {31, 32}, 'path': {33, 34}, 'prof': {38, 39, 40}, 'hbot': {42, 43, 44}, 'pbot': {45, 46},
    'cond': set(range(47, 57)), 'val': {57, 58}, 'island': set(),
}
LIMITS = {
    'L': (1000, -2000000, 2000000), 'L0': (1000, 0, 2000000), 'L1': (1000, 1, 2000000), 'Dia': (1000, 10, 200000),
    'Edge': (1000, 0, 100000), 'Feed': (60000, 1, 100000), 'Speed': (60, 1, 100000),
    'N': (1000, -2000000000, 2000000000), 'P': (1000, -2000000, 2000000), 'V': (1000, -2000000, 2000000),
}
TOKEN = re.compile(r"\s+|/\*.*?\*/|(?P<text>'(?:[^']|'')*')|(?P<ref>#\d+)|(?P<real>[+-]?\d+\.\d*(?:E[+-]?\d+)?)"
                   r'|(?P<int>[+-]?\d+)|(?P<enum>\.[A-Z_][A-Z0-9_]*\.)|(?P<binary>"[0-3][0-9A-F]*")'
                   r'|(?P<key>!?[A-Z_][A-Z0-9_]*)|(?P<mark>[(),;=$*])', re.S)


class Reader:
    """The instances of a data section, as numbers with their parts; any slip is an exception."""

    def __init__(self, text):
        self.tokens = [(m.lastgroup, m.group()) for m in TOKEN.finditer(text) if m.lastgroup]
        self.at = 0

    def take(self, wanted=None):
        token = self.tokens[self.at]
        if wanted and token != ('mark', wanted):
            raise ValueError(token)
        self.at += 1
        return token

    def param(self):
        kind, text = self.tokens[self.at]
        if (kind, text) == ('mark', '('):
            return 'list', self.params()
        self.take()
        if kind == 'key':
            self.take('(')
            inner = self.param()
            self.take(')')
            return 'typed', inner
        if kind == 'mark' and text not in '$*':
            raise ValueError(text)
        return ('lack', text) if kind == 'mark' else (kind, int(text[1:]) if kind == 'ref' else text)

    def params(self):
        self.take('(')
        found = []
        if self.tokens[self.at] == ('mark', ')'):
            self.take()
            return found
        while True:
            found.append(self.param())
            if self.take()[1] == ')':
                return found
            if self.tokens[self.at - 1] != ('mark', ','):
                raise ValueError(self.tokens[self.at - 1])

    def part(self):
        kind, name = self.take()
        if kind != 'key':
            raise ValueError(name)
        return name, self.params()

    def instances(self):
        found = []
        while self.at < len(self.tokens):
            number = int(self.take()[1][1:])
            self.take('=')
            if self.tokens[self.at] == ('mark', '('):
                self.take()
                parts = [self.part()]
                while self.tokens[self.at] != ('mark', ')'):
                    parts.append(self.part())
                self.take(')')
            else:
                parts = [self.part()]
            self.take(';')
            found.append((number, parts))
        return found


def decimal(text):
    """The number of a text, or None past the limits."""
    sign, whole, fraction, power_sign, power = re.fullmatch(r'([+-]?)(\d+)(?:\.(\d*))?(?:E([+-]?)(\d+))?', text).groups()
    fraction = fraction or ''
    if len(text) > 64 or len((whole + fraction).lstrip('0')) > 30 or int(power or 0) > 99:
        return None
    value = Fraction(int(whole + fraction), 10 ** len(fraction)) * Fraction(10) ** (int(power or 0) * (-1 if power_sign == '-' else 1))
    return -value if sign == '-' else value


def through(param):
    return param[1] if param[0] == 'typed' else param


def is_number(param):
    return through(param)[0] in ('int', 'real')


def is_within(param, kind):
    value = decimal(through(param)[1])
    if value is None:
        return False
    factor, least, greatest = LIMITS[kind]
    size = abs(value * factor)
    rounded = (2 * size.numerator + size.denominator) // (2 * size.denominator)
    return least <= (rounded if value >= 0 or kind == 'Speed' else -rounded) <= greatest


def judge(param, kind, may_lack):
    """The numbers that a parameter names, or the word of its fault."""
    form, content = param
    lack = form == 'lack'
    if lack and (may_lack or kind in ('Z', 'Z0')):
        return []
    if kind == 'B':
        return [content] if form == 'ref' else []
    if kind in ('P', 'V'):
        sizes = (2, 3) if kind == 'P' else (3,)
        if form != 'list' or len(content) not in sizes or not all(is_number(p) for p in content):
            return 'KindAt'
        return [] if all(is_within(p, kind) for p in content) else 'Range'
    if kind == 'Z0':
        return 'KindAt' if not is_number(param) else ([] if decimal(through(param)[1]) == 0 else 'Range')
    if kind in LIMITS:
        return 'KindAt' if not is_number(param) else ([] if is_within(param, kind) else 'Range')
    if kind == 'T':
        return [] if through(param)[0] == 'text' else 'KindAt'
    if kind.startswith('RL:'):
        if form != 'list' or any(through(p)[0] != 'ref' for p in content):
            return 'KindAt'
        return [through(p)[1] for p in content]
    if kind.startswith('R:') and through(param)[0] == 'ref':
        return [through(param)[1]]
    return 'KindAt'


def shown(number, parts):
    """The row of an instance with its references (place, kind, number), or with its fault; None for a stranger."""
    if len(parts) != 1 or parts[0][0] not in KEYWORDS:
        return None
    row, params = KEYWORDS[parts[0][0]], parts[0][1]
    wanted = max([place for place, _, _ in READS[row]], default=0)
    if len(params) < wanted:
        return row, 'Count(%d, %d, %d)' % (number, wanted, len(params))
    references = []
    for place, kind, may_lack in READS[row]:
        names = judge(params[place - 1], kind, may_lack)
        if isinstance(names, str):
            return row, '%s(%d, %d)' % (names, number, place)
        references += [(place, kind, name) for name in names]
    return row, references


def verdict(instances):
    model = {number: shown(number, parts) for number, parts in instances}
    projects = [number for number, parts in instances if len(parts) == 1 and parts[0][0] == 'PROJECT']
    if len(projects) != 1:
        return 'TwoProjects(%d)' % projects[1] if projects else 'NoProject'

    def row_of(number):
        return model[number][0] if model.get(number) else None

    def references(number):
        if isinstance(model[number][1], str):
            return []
        return [(place, {9} if kind == 'B' else GROUPS.get(kind.split(':')[1]) or ({int(kind.split(':')[1])} if kind.split(':')[1].isdigit() else set()), name)
                for place, kind, name in model[number][1] if kind != 'B' or row_of(name) == 9]

    def is_good(reference):
        return row_of(reference[2]) in reference[1]

    def led_to(start):
        found, todo = set(), list(start)
        while todo:
            for reference in references(todo.pop()):
                if is_good(reference) and reference[2] not in found:
                    found.add(reference[2])
                    todo.append(reference[2])
        return found

    reached = led_to(projects) | set(projects)
    for number in sorted(reached):
        if isinstance(model[number][1], str):
            return 'Entity(%s)' % model[number][1]
        for place, group, name in references(number):
            if not is_good((place, group, name)):
                return 'WrongKind(%d, %d, %d)' % (number, place, name) if name in model else 'Dangling(%d, %d)' % (number, place)
    on_cycle = [number for number in sorted(reached) if number in led_to([number])]
    return 'Cycle(%d)' % on_cycle[0] if on_cycle else 'sound %d' % projects[0]


VALUES = [
    '$', '*', '1', '0', '0.', '-0.0', '0.00001', '2000.', '2000.001', '2000.0004', '-2000.0005', '1.E99', '1.E100', '9' * 31 + '.',
    '0.' + '0' * 40 + '1', '-12.', '100000000.', '2000000.0005', '#3', '#6', '#17', '#999', '#4', '#11', "'x'", '.T.', '()', '(#4)',
    '(#4,#999)', '(#4,#3)', '(1.,2.)', '(1.,2.,3.)', '(1.,2.,3.,4.)', '(1.,2000.001)', '(1.,$)', '(LENGTH(1.),2.)', 'T(#6)',
    'T(T(#6))', 'LENGTH(5.)', 'LENGTH($)', 'T(T(5.))', 'T((1.,2.))', "T('x')", 'T((#4))', '(T(#4))', '(2000.5,.F.)', '"0F"',
    '0.0000166', '0.000008', '1.66667', '1.666675', '-0.0083', '-0.0084', '(1000.,1.,0.)', '(2000.0005,1.,0.)',
]
FURTHER = """#200=IF_STATEMENT('',#201,#4,$);
#201=AND_EXPRESSION((#202,#203));
#202=NOT_EXPRESSION(#204);
#203=XOR_EXPRESSION(#204,#205);
#204=COMPARISON_GREATER(#206,#207);
#205=COMPARISON_EQUAL(#206,#206);
#206=NC_VARIABLE('deep',1.5);
#207=NC_CONSTANT('',LENGTH(2.));
#208=WORKPLAN('sub',(#4,#200),$,#5,$);
#209=WORKPLAN('sub',(#208),$,#5,$);
"""


def split(line):
    """What stands before the parameters of an instance, the parameters, and what stands behind them."""
    first, last = line.index('('), line.rindex(')')
    params, depth, quoted, start = [], 0, False, first + 1
    for at in range(first + 1, last + 1):
        quoted ^= line[at] == "'"
        depth += 0 if quoted else {'(': 1, ')': -1}.get(line[at], 0)
        if not quoted and (depth < 0 or depth == 0 and line[at] == ','):
            params.append(line[start:at])
            start = at + 1
    return line[:first + 1], params if params != [''] else [], line[last:]


def changed_part(draw, data):
    lines = data.splitlines()
    for _ in range(draw.choice([1, 1, 1, 2, 3])):
        at, way = draw.randrange(len(lines)), draw.random()
        before, params, after = split(lines[at])
        numbers = re.findall(r'^#\d+', '\n'.join(lines), re.M)
        if way < 0.62 and params:
            params[draw.randrange(len(params))] = draw.choice(VALUES if draw.random() < 0.7 else numbers)
        elif way < 0.7:
            params = params[:-1]
        elif way < 0.75:
            params.append(draw.choice(VALUES))
        elif way < 0.83 and len(lines) > 1:
            del lines[at]
            continue
        elif way < 0.93:
            before = re.sub(r'=.*\(', '=%s(' % draw.choice(list(KEYWORDS)), before)
        else:
            before, after = before.replace('=', '=(', 1), ')%s);' % draw.choice(['', 'X()'])
        lines[at] = before + ','.join(params) + after
    draw.shuffle(lines)
    return '\n'.join(lines) + '\n'


def graph(draw):
    """Workplans that name each other, with and without cycles."""
    numbers = draw.sample(range(2, 60), draw.randrange(2, 14))
    project, lines = draw.choice([1, 61, 99]), []
    for place, number in enumerate(numbers):
        later = numbers[place + 1:] + ([draw.choice(numbers)] if draw.random() < 0.15 else [])
        pool = later if draw.random() < 0.7 else numbers
        named = [draw.choice(pool) for _ in range(draw.randrange(4))] if pool else []
        named += [draw.choice([project, 777])] if draw.random() < 0.03 else []
        lines.append("#%d=WORKPLAN('',(%s),$,$);" % (number, ','.join('#%d' % n for n in named)))
    lines.append("#%d=PROJECT('',#%d,());" % (project, draw.choice(numbers)))
    draw.shuffle(lines)
    return '\n'.join(lines) + '\n'


def build_program(folder):
    os.makedirs(folder + '/crates/tell/src')
    shutil.copy('HANDLES', folder)
    lines = {line.split(':')[0]: line for line in open('crates.txt')}
    for crate in CRATES:
        shutil.copytree('crates/' + crate, folder + '/crates/' + crate)
    with open(folder + '/crates.txt', 'w') as out:
        out.writelines(lines[crate] for crate in CRATES)
        out.write('tell: sn_refs sn_model sn_p21\n')
    with open(folder + '/crates/tell/src/main.rt', 'w') as out:
        out.write(PROGRAM)
    done = subprocess.run(['rt', 'run'], cwd=folder + '/crates/tell', capture_output=True, text=True)
    program = folder + '/crates/tell/out/tell'
    if not os.path.exists(program):
        sys.exit('not built: ' + (done.stdout + done.stderr)[-2000:])
    return program


def main():
    if not shutil.which('rt'):
        print('skipped: no rt', file=sys.stderr)
        return 0
    count = int(sys.argv[1]) if len(sys.argv) > 1 else 2000
    draw = random.Random(int(sys.argv[2]) if len(sys.argv) > 2 else 1)
    sample = open('crates/stepmill/data/one.stp').read()
    data = sample[sample.index('DATA;\n') + 6:sample.rindex('ENDSEC;')]
    larger = data.replace('(#4),$,#5', '(#209,#4),$,#5') + FURTHER
    texts, wanted = [], []
    for place in range(2 * count):
        text = graph(draw) if place % 2 else changed_part(draw, draw.choice([data, larger, larger]))
        try:
            instances = Reader(text).instances()
        except (ValueError, IndexError):
            continue
        if len({number for number, _ in instances}) == len(instances):
            texts.append(HEAD + text + FOOT)
            wanted.append(verdict(instances))
    with tempfile.TemporaryDirectory() as folder:
        with open(folder + '/texts', 'w') as out:
            out.write('===\n'.join(texts))
        done = subprocess.run([build_program(folder), folder + '/texts'], capture_output=True, text=True)
    told = done.stdout.splitlines()
    other = [(text, want, got) for text, want, got in zip(texts, wanted, told) if want != got]
    for text, want, got in other[:5]:
        print('wanted %s, told %s:\n%s' % (want, got, text))
    print('%d passed, %d failed' % (len(told) - len(other), len(other) + abs(len(texts) - len(told))))
    return 1 if other or len(texts) != len(told) else 0


sys.exit(main())
