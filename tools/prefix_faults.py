#!/usr/bin/env python3
"""Prints the first fault of each proper prefix of the sample part: its length, the words of the fault, and its offset.

The fault is computed by a plain program over the definition: the fewest first tokens that begin no part text, where
whether tokens begin one is decided by following all derivations of the grammar side by side. Run at the top of the
repository.
"""
import re
import sys

SEPARATOR = re.compile(r'[ \t\r\n\f]|/\*.*?\*/', re.S)
TOKENS = {
    'FileStart': re.compile(r'ISO-10303-21'),
    'FileEnd': re.compile(r'END-ISO-10303-21'),
    'Keyword': re.compile(r'!?[A-Z_][A-Z0-9_]*'),
    'Number': re.compile(r'#[0-9]+'),
    'Integer': re.compile(r'[+-]?[0-9]+'),
    'Real': re.compile(r'[+-]?[0-9]+\.[0-9]*(E[+-]?[0-9]+)?'),
    'Text': re.compile(r"'(?:[^']|'')*'", re.S),
    'Enumeration': re.compile(r'\.[A-Z_][A-Z0-9_]*\.'),
    'Binary': re.compile(r'"[0-3][0-9A-F]*"'),
}
TOKENS.update({mark: re.compile(re.escape(mark)) for mark in '(),;=$*'})
FAULTS = {
    'open comment': re.compile(r'/\*(?:(?!\*/).)*\Z', re.S),
    'open string': re.compile(r"'(?:[^']|'')*\Z", re.S),
    'bad number': re.compile(r'[+-](?![0-9])|[+-]?[0-9]+\.[0-9]*E[+-]?(?![0-9])|#(?![0-9])'),
    'bad enumeration': re.compile(r'\.(?:[A-Z_][A-Z0-9_]*)?'),
}

# Names in small letters are rules; '=WORD' is that keyword, 'Own' a keyword but ENDSEC, 'New' a number not yet taken.
RULES = {
    'file': [['FileStart', ';', '=HEADER', ';', 'desc', 'name', 'schema', 'entities', '=ENDSEC', ';',
              '=DATA', ';', 'instances', '=ENDSEC', ';', 'FileEnd', ';']],
    'desc': [['=FILE_DESCRIPTION', 'params', ';']],
    'name': [['=FILE_NAME', 'params', ';']],
    'schema': [['=FILE_SCHEMA', 'params', ';']],
    'entities': [[], ['Own', 'params', ';', 'entities']],
    'instances': [[], ['New', '=', 'body', ';', 'instances']],
    'body': [['Keyword', 'params'], ['(', 'Keyword', 'params', 'parts', ')']],
    'parts': [[], ['Keyword', 'params', 'parts']],
    'params': [['(', ')'], ['(', 'param', 'more', ')']],
    'more': [[], [',', 'param', 'more']],
    'param': [['Integer'], ['Real'], ['Text'], ['Enumeration'], ['Binary'], ['Number'], ['$'], ['*'], ['params'],
              ['Keyword', '(', 'param', ')']],
}


def tokens(text):
    """The tokens with their texts and offsets, the longest form at each place; a faulty one is the last."""
    at = 0
    while at < len(text):
        found = [(m.end() - at, 0, None) for m in [SEPARATOR.match(text, at)] if m]
        found += [(m.end() - at, 1, kind) for kind, form in TOKENS.items() for m in [form.match(text, at)] if m]
        found += [(m.end() - at, 2, kind) for kind, form in FAULTS.items() for m in [form.match(text, at)] if m]
        size, rank, kind = max(found, key=lambda f: (f[0], -f[1])) if found else (1, 2, 'bad byte')
        if rank:
            yield kind, text[at:at + size], at, rank == 2
        at += size
        if rank == 2:
            return


def expanded(stacks):
    """All ways to go on, each with a token or nothing at its front."""
    done, todo = set(), list(stacks)
    while todo:
        stack = todo.pop()
        if stack in done:
            continue
        done.add(stack)
        if stack and stack[0] in RULES:
            todo += [tuple(rule) + stack[1:] for rule in RULES[stack[0]]]
    return {stack for stack in done if not stack or stack[0] not in RULES}


def fits(wanted, kind, text, taken):
    if wanted == 'New':
        return kind == 'Number' and int(text[1:]) not in taken
    if wanted == 'Own':
        return kind == 'Keyword' and text != 'ENDSEC'
    if len(wanted) > 1 and wanted[0] == '=':
        return kind == 'Keyword' and text == wanted[1:]
    return kind == wanted


def fault(text):
    """The words of the first fault and its offset, or None for a part text. Nesting never passes its limit here."""
    stacks, taken = expanded({('file',)}), set()
    for kind, piece, at, faulty in tokens(text):
        if faulty:
            return kind, at
        taking = [stack for stack in stacks if stack and fits(stack[0], kind, piece, taken)]
        if not taking:
            again = kind == 'Number' and any(stack and stack[0] == 'New' for stack in stacks)
            return ('#%d twice' % int(piece[1:]) if again else 'unexpected'), at
        if any(stack[0] == 'New' for stack in taking):
            taken.add(int(piece[1:]))
        stacks = expanded({stack[1:] for stack in taking})
    return None if () in stacks else ('unexpected', len(text))


def main():
    name = sys.argv[1] if len(sys.argv) > 1 else 'crates/stepmill/data/one.stp'
    text = open(name, 'rb').read().decode('latin-1')
    for length in range(len(text) - 1):
        words, at = fault(text[:length])
        print('%d %s at %d' % (length, words, at))


main()
