#!/usr/bin/env python3
"""Lists the places of crates/*/src that docs/DESIGN-PASS.md counts, point by point: `places.py [--list] [POINT..]`, at the top.

1 answers of their own, flags with a value beside them, numbers for kinds   2 twins   3 `while` loops
4 conversions written by hand   5 facts and parameters that are repeated   6 buffers with a length beside, parallel arrays
7 switches by a number on what to call   8 answers and lemmas named for a function, under proofs/
"""
import collections
import glob
import re
import sys

NUMBER = r'(?:u8|u16|u32|u64|usize)'


def sources():
    for path in sorted(glob.glob('crates/*/src/*.rt')):
        with open(path) as file:
            yield path, file.read()


def items(kind, text):
    """The items of a kind: name, place, head and body."""
    for m in re.finditer(r'^( *)(?:pub(?:\(crate\))? )?(?:extern "C" )?%s (\w+)' % kind, text, re.M):
        end = re.search(r'^%s\}$' % m.group(1), text[m.start():], re.M)
        whole = text[m.start():m.start() + end.end()] if end else text[m.start():].split('\n')[0]
        opening = re.search(r'^%s\{$|\{$' % m.group(1), whole, re.M)
        at = opening.end() if opening else len(whole)
        yield m.group(2), text.count('\n', 0, m.start()) + 1, whole[:at], whole[at:]


def parameters(head):
    inside = head[head.find('(') + 1:head.find(')\n') if ')\n' in head else head.rfind(')')]
    return re.findall(r'(\w+): (&mut \[\w+\]|&\[\w+\]|[\w<>\[\]; ,&]+?)(?:,|$|\))', inside.split(') ->')[0] + ',')


def point_1():
    for path, text in sources():
        for name, line, _, body in items('enum', text):
            if re.search(r'^ *(Refused|Nothing)\b', body, re.M):
                yield path, line, 'enum %s: an answer of its own' % name
        for name, line, _, body in items('struct', text):
            flags = re.findall(r'(\w+): bool', body)
            others = re.findall(r'(\w+): (?!bool)', body)
            if len(flags) == 1 and others:
                yield path, line, 'struct %s: the flag %s beside a value' % (name, flags[0])
        for n, row in enumerate(text.split('\n'), 1):
            if re.search(r'\b(kind|call|phase|command|letter|cause): %s\b' % NUMBER, row):
                yield path, n, 'a number for a kind: ' + row.strip()


def shape(text):
    text = re.sub(r'//.*', '', text)
    text = re.sub(r'\b[A-Z]\w*(::[A-Z]\w*)*|\b\d[\w]*|b\'.\'', 'N', text)
    return re.sub(r'\b(?!fn|let|mut|if|else|match|return|for|in|while|as)[a-z]\w*\b', 'x', text)


def point_2():
    seen = collections.defaultdict(list)
    for path, text in sources():
        for kind in ('fn', 'struct'):
            for name, line, head, body in items(kind, text):
                if body.count('\n') >= 3:
                    head = re.sub(r'ensures .*|requires .*', '', head)
                    seen[kind + re.sub(r'\s+', ' ', shape(head.replace(name, '') + body))].append((path, line, name))
    for twins in seen.values():
        if len(twins) > 1:
            path, line, _ = twins[0]
            yield path, line, 'the same but for names: ' + ', '.join('%s (%s)' % (n, p.split('/')[1]) for p, _, n in twins)


def point_3():
    for path, text in sources():
        for n, row in enumerate(text.split('\n'), 1):
            if re.search(r'\b(while|loop)\b', row.split('//')[0]):
                yield path, n, row.strip()


def point_4():
    for path, text in sources():
        for name, line, head, body in items('fn', text):
            found = parameters(head)
            answer = re.search(r'-> ([\w<>]+)', head)
            lines = [row for row in body.strip().split('\n') if row.strip()]
            if len(found) == 1 and answer and (lines[0].strip().startswith(('match ' + found[0][0], 'if ' + found[0][0] + ' '))
                                              or (len(lines) == 2 and ' as ' in lines[0])):
                yield path, line, 'fn %s(%s: %s) -> %s' % (name, found[0][0], found[0][1], answer.group(1))


def facts(head):
    for clause in re.findall(r'requires \{ (.*) \}', head):
        for part in clause.split(' × '):
            yield re.sub(r'^\((.*)\)$', r'\1', part.strip())


def point_5():
    needs, pairs = collections.defaultdict(list), collections.defaultdict(list)
    for path, text in sources():
        for name, line, head, _ in items('fn', text):
            for fact in set(facts(head)):
                needs[(path.split('/')[1], fact)].append((path, line, name))
            found = parameters(head)
            for one, other in zip(found, found[1:]):
                pairs[(one[0], other[0])].append((path, line, name))
    for (crate, fact), places in sorted(needs.items()):
        if len(places) >= 3:
            yield places[0][0], places[0][1], 'required %d times in %s: %s' % (len(places), crate, fact)
    for (one, other), places in sorted(pairs.items()):
        if len(places) >= 3:
            yield places[0][0], places[0][1], 'parameters %s, %s together in %d functions' % (one, other, len(places))


def point_6():
    for path, text in sources():
        for name, line, _, body in items('struct', text):
            arrays = re.findall(r'(\w+): \[', body)
            counts = re.findall(r'(\w*(?:len|count|tasks|reads)\w*): %s' % NUMBER, body)
            if arrays and (counts or len(arrays) > 1):
                yield path, line, 'struct %s: %s' % (name, ', '.join(arrays + counts))
        for name, line, head, _ in items('fn', text):
            found = [n for n, _ in parameters(head)]
            if ('order' in found and 'number' in found) or ('out' in found and 'at' in found) or ('room' in found and 'at' in found):
                yield path, line, 'fn %s(%s)' % (name, ', '.join(found))


def point_7():
    for path, text in sources():
        for n, row in enumerate(text.split('\n'), 1):
            if re.search(r'\b(match|if) (phase|command|call|letter|number)\b', row.split('//')[0]) or re.search(r'\bdyn |\bfn\(', row):
                yield path, n, row.strip()


def point_8():
    for path in sorted(glob.glob('crates/*/proofs/**/Answers.antt', recursive=True)):
        with open(path) as file:
            text = file.read()
        for name in re.findall(r'^(?:abbrev )?pub ([\w\'-]+) : goal', text, re.M):
            yield path, 1, name
    for path, text in sources():
        for n, row in enumerate(text.split('\n'), 1):
            found = re.search(r'using\(([^)]*)\)', row)
            if found:
                for lemma in found.group(1).split(', '):
                    yield path, n, 'using ' + lemma


def main():
    wanted = [int(word) for word in sys.argv[1:] if word.isdigit()] or range(1, 9)
    for number in wanted:
        places = list(globals()['point_%d' % number]())
        print('point %d: %d' % (number, len(places)))
        if '--list' in sys.argv:
            for path, line, what in places:
                print('    %s:%d: %s' % (path, line, what))


main()
