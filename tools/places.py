#!/usr/bin/env python3
"""Counts the places that docs/DESIGN-PASS.md speaks of in another way than tools/places.sh: it reads each function.

    tools/places.py [TOP]        a line for each kind of place
    tools/places.py TOP crates   a table: for each crate, the places of each point
    tools/places.py TOP list     the places themselves
"""
import collections
import glob
import itertools
import os
import re
import sys

Fn = collections.namedtuple('Fn', 'crate file line name method head params result requires ensures body')
HEAD = re.compile(r'^( *)(?:pub )?(?:unsafe )?(?:extern "C" )?fn (\w+)((?:(?!^ *\}|;\n).)*?)(?:^\1| )\{\n(.*?)^\1\}$', re.M | re.S)
TYPE = re.compile(r'^((?:#\[[^\n]*\]\n)*)(?:pub )?(struct|enum) (\w+)[^{;]*\{\n(.*?)^\}', re.M | re.S)


def plain(text):
    return '\n'.join(line for line in text.split('\n') if not line.lstrip().startswith(('//', 'ghost use')))


def clauses(head, word):
    return ' '.join(re.findall(word + r'[^{]*\{(.*?)\}\s*(?=requires|ensures|$)', head, re.S))


def parts(clause):
    """A clause's parts: what stands between × outside of parentheses."""
    depth, part, out = 0, '', []
    for c in clause + '×':
        depth += (c == '(') - (c == ')')
        if c == '×' and depth == 0:
            out.append(part.strip())
            part = ''
        else:
            part += c
    return [re.sub(r'\.(old|now|new)\b', '', p[1:-1] if p[:1] == '(' and p[-1:] == ')' else p) for p in out if p]


def params(head):
    inner = re.search(r'\((.*?)\)\s*(?:->|requires|ensures|$)', re.sub(r'&\(impl.*?\)', '&impl', head), re.S)
    return dict(re.findall(r'(?:mut )?(\w+): ([^,]+(?:, \d+\])?)', inner[1])) if inner else {}


def functions(top):
    out = []
    for path in sorted(glob.glob(top + '/crates/*/src/**/*.rt', recursive=True)):
        text = open(path, encoding='utf-8').read()
        shown = os.path.relpath(path, top + '/crates')
        for m in HEAD.finditer(text):
            name, head, body = m[2], m[3], m[4]
            result = re.search(r'\) -> ([^{]*?)\s*(?:requires|ensures|$)', head, re.S)
            out.append(Fn(shown.split('/')[0], shown, text.count('\n', 0, m.start()) + 1, name, m[1] != '', head, params(head), result[1].strip() if result else '', clauses(head, 'requires'), clauses(head, 'ensures'), plain(body)))
    return out


def types(top):
    for path in sorted(glob.glob(top + '/crates/*/src/**/*.rt', recursive=True)):
        text = open(path, encoding='utf-8').read()
        for m in TYPE.finditer(text):
            yield os.path.relpath(path, top + '/crates'), m[1], m[2], m[3], plain(m[4])


def loops(body):
    """Each loop of a body: its first line and its inside, by the indent."""
    return [(m[2], m[3]) for m in re.finditer(r'^( *)(while [^\n]*|for [^\n]*|loop) \{\n(.*?)^\1\}', body, re.M | re.S)]


def same(text):
    """A text in which what differs only in a sample's kind, a size or a constant reads alike."""
    text = re.sub(r'(?:_|\b)(?:grey|rate|float|byte)s?(?:\b|(?=_))', '_S', text)
    text = re.sub(r'\b(f32|u8|u16|usize)\b', 'T', text)
    text = re.sub(r'_?\b(\w*?)_(least|most)\b', r'\1_end', text)
    text = re.sub(r'Kind::\w+|\b(Erosion|Dilation)\b', 'K', text)
    return re.sub(r'\b\d[\d_.a-z]*|\s+', lambda m: '9' if m[0].strip() else ' ', text)


def refusals(fns, shapes):
    refuse = {f.name for f in fns if f.result == 'u8' and re.search(r'return [1-9]\d?;|\breturn number;|\n    [1-9]\d?\n$', f.body)}
    for f in fns:
        if f.name in refuse and f.result == 'u8':
            yield 1, 'refuses', f, f.name
        for m in re.finditer(r'\breturn (\d+|number|told);', f.body if f.name in refuse and f.result == 'u8' else ''):
            yield 1, 'returns', f, m[0]
        for m in re.finditer(r'^ *number: (?:number|refusal|0|\d+),$|^ *number,$', f.body, re.M):
            yield 1, 'records', f, m[0].strip()
        for m in re.finditer(r'\bif [^\n]*\b(number|told|judge\w*\(.*\)) [!=]= 0\b', f.body):
            yield 1, 'asks', f, m[0]
        if f.result == 'usize' and re.search(r'return \w+\.len\(\);|while (\w+) < \w+\.len\(\) \{.*return \1;.*\n    \1\n?$', f.body, re.S):
            yield 1, 'sentinels', f, f.name
        if f.result == 'usize' and set(re.findall(r'return (.*);|(?:^ {4}|\{ )(\w+)(?=$| \})', f.body, re.M)) in ({('1', ''), ('', '0')}, {('0', ''), ('', '1')}, {('', '0'), ('', '1')}, {('0', ''), ('1', ''), ('', '0')}):
            yield 1, 'bits', f, f.name
    for path, derives, word, name, inside in shapes:
        if word == 'enum' and re.search(r'^    (Refused|Failed|Lost|NotYet|None)\b', inside, re.M):
            yield 1, 'enums', path, name
        if word == 'struct' and re.search(r'^    (pub )?number: u8', inside, re.M) and inside.count('\n') > 1:
            yield 1, 'structs', path, name


def twins(fns, shapes):
    fns = [f for f in fns if not f.method]

    def told(groups, kind):
        for each in groups.values():
            for one in each[1:]:
                yield 2, kind, one[0], '%s, like %s' % (one[1], each[0][2])
    alike = collections.defaultdict(list)
    for f in fns:
        if f.body.count('\n') > 1 or f.ensures:
            alike[same(f.head + f.body).replace('_S', '')].append((f, f.name, f.crate + '::' + f.name))
    yield from told(alike, 'bodies')
    heads = collections.defaultdict(list)
    for f in fns:
        heads[f.name, same(re.sub(r'\b(requires|ensures)\b.*', '', f.head, flags=re.S)), same(f.file)].append((f, f.name, f.crate + '::' + f.name))
    done = {id(each[0]) for group in alike.values() for each in group[1:]}
    others = {k: [x for x in v if v[0] is x or id(x[0]) not in done] for k, v in heads.items()}
    yield from told({k: v for k, v in others.items() if len({x[0].file for x in v}) > 1}, 'heads')
    records = collections.defaultdict(list)
    for path, derives, word, name, inside in shapes:
        records[same(inside)].append((path, name, path.split('/')[0] + '::' + name))
    yield from told(records, 'types')


def walks(fns):
    for f in fns:
        for first, inside in loops(f.body):
            steps = set(re.findall(r'^ *(\w+) (?:\+=|-=) \w+;', inside, re.M))
            tested = set(re.findall(r'\b\w+\b', first))
            if first.startswith('while') and steps & tested:
                slice_ = 'slices' if re.search(r'\w+\[(%s)\b' % '|'.join(steps & tested), inside) else 'counts'
                yield 3, slice_, f, first
            elif first.startswith('while'):
                yield 3, 'other', f, first
            elif re.match(r'for \w+ in .*\.\.', first) and re.search(r'\[%s\]' % first.split()[1], inside):
                yield 3, 'ranges', f, first


def conversions(fns, shapes):
    for f in fns:
        body = f.body.strip()
        if re.fullmatch(r'\(?[\w% .]+\)? as \w+', body):
            yield 4, 'casting', f, f.name
        if len(f.params) == 1 and re.fullmatch(r'match \w+ \{(\s*[\w:]+(\(\w*\))? => [\w:]+,)+\s*\}|if \w+ == \d+ \{\s*(return )?[\w:]+;?\s*\}( else \{)?\s*[\w:]+(\s*\})?', body):
            yield 4, 'tables', f, f.name
        for first, inside in loops(body):
            if '[' in inside and re.fullmatch(r'\s*(\w+\[[\w +]+\] = (\w+\[[\w +]+\]|0|0\.0);|\w+ \+= 1;|\s)+', inside):
                yield 4, 'fills', f, first
        if len(re.findall(r'^ *(\w+): \w+\.\1,', body, re.M)) >= 3 or len(re.findall(r'let (?:mut )?(\w+) = \w+\.\1;', body)) >= 3:
            yield 4, 'fields', f, f.name
        if re.search(r'% 256|\* 256|\* 65536', body):
            yield 4, 'packs', f, f.name
        if re.search(r'\b(text|byte|number)\(rt, ', body):
            yield 4, 'printers', f, f.name
        if re.fullmatch(r'if (\w+) <=? (\w+) \{\s*(\1|\2)\s*\} else \{\s*(\1|\2)\s*\}', body):
            yield 4, 'orders', f, f.name
    for path, derives, word, name, inside in shapes:
        if not re.search(r'PartialEq', derives):
            yield 4, 'underived', path, name


def parameters(fns):
    """Groups of three names of parameters or more that three functions have, and facts that three functions ask."""
    sets = [(f, frozenset(n for n in f.params if n not in ('rt', 'self'))) for f in fns]
    groups = collections.defaultdict(set)
    for (f, a), (g, b) in itertools.combinations(sets, 2):
        if len(a & b) >= 4:
            groups[a & b] |= {(f.crate, f.name), (g.crate, g.name)}
    often = [g for g in groups if len(groups[g]) >= 3]
    for f, a in sets:
        best = max((g for g in often if g <= a), key=len, default=None)
        if best:
            yield 5, 'groups', f, ' '.join(n for n in f.params if n in best)
    facts = collections.defaultdict(list)
    for f in fns:
        for part in set(parts(f.requires)):
            facts[part].append(f)
    for fact, where in facts.items():
        if len(where) >= 3:
            for f in where:
                yield 5, 'facts', f, fact


def buffers(fns, shapes):
    for f in fns:
        lent = [n for n, t in f.params.items() if '[' in t]
        by = collections.defaultdict(set)
        for name, at in re.findall(r'\b(\w+)\[([\w +]+)\]', f.body):
            by[at].add(name)
        if any(len(names) > 1 for at, names in by.items() if not at.isdigit()):
            yield 6, 'together', f, f.name
        if any(re.search(r'\b%s\[(at|from|lo)\b' % n, f.body) for n in lent):
            yield 6, 'offsets', f, f.name
        if any(re.search(r'\b%s ≤ length (%s)\b' % (c, '|'.join(lent)), part) for part in parts(f.requires) for c in f.params if lent):
            yield 6, 'counted', f, f.name
    for path, derives, word, name, inside in shapes:
        if re.search(r': \[\w+; \w+\]', inside) and re.search(r'\b(count|start|have|length): (usize|u8)', inside):
            yield 6, 'structs', path, name


def switches(fns):
    for f in fns:
        for m in re.finditer(r'^( *)match (\w+) \{\n(.*?)^\1\}', f.body, re.M | re.S):
            arms = re.findall(r'=> ([\w:]+)\(', m[3])
            if len(arms) > 1 and len(arms) == len(re.findall(r'=>', m[3])) and not any(a[-1:].isupper() or a.split('::')[-1][:1].isupper() for a in arms):
                yield 7, 'calls' if len(set(arms)) > 1 else 'literals', f, 'match ' + m[2]
        for name, kind in f.params.items():
            if kind.strip() == 'bool' and re.search(r'\bif !?%s\b' % name, f.body):
                yield 7, 'flags', f, name


def proofs(top):
    alike = collections.defaultdict(list)
    for path in sorted(glob.glob(top + '/crates/*/proofs/**/Answers.antt', recursive=True)):
        text = re.sub(r'^ *--.*\n|^use .*\n', '', open(path, encoding='utf-8').read(), flags=re.M)
        shown = os.path.relpath(path, top + '/crates')
        for block in re.split(r'\n(?=(?:pub )?[^\s=]+ : )', text):
            m = re.match(r'(?:pub )?(\S+) : goal\.', block.strip())
            if m:
                said = re.sub(r'\b(greys|rates|grey|rate)\b', 'S', ' '.join(block.split()[3:]))
                alike[said].append((shown, m[1]))
                if len(said) < 60:
                    yield 8, 'brief', shown, m[1]
    for where in alike.values():
        for shown, name in where[1:]:
            yield 8, 'repeated', shown, '%s, as in %s' % (name, where[0][0])


def main(top, how):
    fns, shapes = functions(top), list(types(top))
    found = [p for points in (refusals(fns, shapes), twins(fns, shapes), walks(fns), conversions(fns, shapes), parameters(fns), buffers(fns, shapes), switches(fns), proofs(top)) for p in points]
    at = [(point, kind, place if isinstance(place, str) else '%s:%d' % (place.file, place.line), said) for point, kind, place, said in found]
    if how == 'list':
        for each in at:
            print('%s %s %s: %s' % each)
    elif how == 'crates':
        count = collections.Counter((place.split('/')[0], point) for point, kind, place, said in at)
        print('| crate | 1 | 2 | 3 | 4 | 5 | 6 | 7 | 8 |\n|---|---:|---:|---:|---:|---:|---:|---:|---:|')
        for crate in sorted({crate for crate, point in count}):
            print('| `%s` | %s |' % (crate, ' | '.join(str(count[crate, p] or '') for p in range(1, 9))))
    else:
        print('%d functions, %d types' % (len(fns), len(shapes)))
        for point in range(1, 9):
            kinds = collections.Counter(kind for p, kind, place, said in at if p == point)
            print('%d: %s, together %d' % (point, ', '.join('%s %d' % k for k in kinds.items()), sum(kinds.values())))


if __name__ == '__main__':
    if len(sys.argv) > 3 or sys.argv[1:2] == ['--help']:
        sys.exit(__doc__)
    main(sys.argv[1] if len(sys.argv) > 1 else '.', sys.argv[2] if len(sys.argv) > 2 else 'points')
