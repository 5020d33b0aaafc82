#!/usr/bin/env python3
"""Counts the places that docs/DESIGN-PASS.md speaks of, in crates/*/src/*.rt (point 8: crates/*/proofs).

The rows stand in points.py, each with a finder below: a pattern over the code (comments and contracts blanked) or over
the clauses, or names, of which those that still stand are counted. Rows may share a line, so a point's number is that
of its distinct lines. A place is where to look, no verdict."""
import argparse, collections, pathlib, re
from points import POINTS

ROOT = pathlib.Path(__file__).resolve().parents[2]
Fn = collections.namedtuple('Fn', 'crate line name head text terms answer start')
CODE, FNS = [], []  # lines as (crate, line, text); functions, each with its clauses (terms) and the line of its text


def clauses(text):
    """Each clause's span, kind and text: from `requires` or `ensures` to the brace that closes it."""
    for m in re.finditer(r'^\s+(requires|ensures)\b[^{\n]*\{', text, re.M):
        depth, i = 1, m.end()
        while depth:
            depth += {'{': 1, '}': -1}.get(text[i], 0)
            i += 1
        yield m.start(), i, m.group(1), text[m.end():i - 1]


def load():
    for path in sorted(ROOT.glob('crates/*/src/**/*.rt')):
        crate = path.relative_to(ROOT).parts[1]
        code = re.sub(r'//.*|^ghost use .*', lambda m: ' ' * len(m.group(0)), path.read_text(), flags=re.M)
        spans = list(clauses(code))
        for a, b, _, _ in spans:
            code = code[:a] + re.sub(r'.', ' ', code[a:b]) + code[b:]
        CODE.extend((crate, i, l) for i, l in enumerate(code.split('\n'), 1))
        for m in re.finditer(r'^([ ]*)(?:pub(?:\(\w+\))? )?(?:extern "C" )?fn (\w+)[\s\S]*?^\1\}', code, re.M):
            at = code.count('\n', 0, m.start()) + 1
            opens = re.search(r'\{ *\n', m.group(0)).end()
            head, rest = m.group(0)[:opens], m.group(0)[opens:]
            start = at + head.count('\n')
            terms = [(k, t) for a, b, k, t in spans if m.start() <= a < m.end()]
            answer = re.search(r'->\s*([^{]*?)\s*\{\s*$|$', head).group(1)
            FNS.append(Fn(crate, at, m.group(2), head, rest, terms, answer, start))


# Finders: each gives (crate, line, text) of its places.
def code(pattern):
    return [(c, i, t.strip()) for c, i, t in CODE if re.search(pattern, t)]

def named(names):
    return [f[:3] for f in FNS if f.crate + '::' + f.name in names.split()]

def groups(lists):
    """Names of twins, a list for each group: a group of which one is left is none."""
    return [r for g in lists for r in (named(g) if len(named(g)) > 1 else [])]

def body(pattern):
    return [f[:3] for f in FNS if re.search(pattern, f.text)]

def takes(words):
    """Functions that have these parameters, but none that is written with a `-` in front."""
    return [f[:3] for f in FNS
            if all((w[0] == '-') != bool(re.search(r'\b%s: ' % w.strip('-'), f.head)) for w in words.split())]

def within(pair):
    """Lines of these functions that match a pattern."""
    return [(f.crate, i, t.strip()) for f in FNS if f.crate + '::' + f.name in pair[0].split()
            for i, t in enumerate(f.text.split('\n'), f.start) if re.search(pair[1], t)]

def says(pattern):
    return [f[:3] for f in FNS if any(re.search(pattern, t) for _, t in f.terms)]

def refusals(_=None):
    """Functions that answer a refusal as u8: they give a number from 3 to 39, or what another of them gives."""
    number = r'return ([3-9]|[1-3]\d);|else \{ 7 \}|^ +(8|12)$'
    ways = [f for f in FNS if f.answer == 'u8']
    found = [f for f in ways if re.search(number, f.text, re.M)]
    while True:
        calls = r'\b(%s)\(' % '|'.join(f.name for f in found)
        more = [f for f in ways if found and f not in found and re.search(calls, f.text)]
        found += more
        if not more:
            return sorted(f[:3] for f in found)

def asked(_=None):
    """Tests of such a number against 0: of a call, of a local that has it, or of a field."""
    calls, found = '|'.join({n for _, _, n in refusals()}), []
    for f in FNS:
        local = re.findall(r'let (?:mut )?(\w+) = (?:\w+::)?(?:%s)\(' % calls, f.text)
        those = '|'.join(local + ['refusal', 'number', 'outcome'] + calls.split('|'))
        test = r'if (?:\w+(?:::|\.))?(?:%s)(?:\(.*\))? [!=]= 0 \{' % those
        found += [(f.crate, i, t.strip()) for i, t in enumerate(f.text.split('\n'), f.start) if re.search(test, t)]
    return found

def loops(pattern):
    """Loops whose head and body match a pattern."""
    found = []
    for k, (c, i, t) in enumerate(CODE):
        m = re.match(r"( *)(while|(?:'\w+: )?loop)\b", t)
        if m:
            end = next(j for j in range(k, len(CODE)) if CODE[j][2] == m.group(1) + '}')
            if re.search(pattern, '\n'.join(l for _, _, l in CODE[k:end])):
                found.append((c, i, t.strip()))
    return found

def facts(least):
    """Parts of `requires` that stand in so many functions, a parameter's name as `_`, each at one of them."""
    found = collections.defaultdict(set)
    for f in FNS:
        names = set(re.findall(r'(\w+):', f.head))
        for part in [p for k, t in f.terms if k == 'requires' for p in t.split('×')]:
            part = re.sub(r'\.(now|old|new)\b', '', ' '.join(part.split()).strip('() '))
            part += ')' * (part.count('(') - part.count(')'))
            found[re.sub(r'[A-Za-z_]\w*', lambda m: '_' if m.group(0) in names else m.group(0), part)].add(f[:3])
    most = sorted(found.items(), key=lambda f: (-len(f[1]), f[0]))
    return [min(rs)[:2] + ('%d functions: %s' % (len(rs), t),) for t, rs in most if len(rs) >= least and t != '_ < _']

def answers(pattern):
    """Top-level definitions of Answers.antt whose type and body match a pattern."""
    found = []
    for path in sorted(ROOT.glob('crates/*/proofs/**/Answers.antt')):
        whole, crate = path.read_text(), path.relative_to(ROOT).parts[1]
        start = r'^ {0,2}(?:abbrev )?(?:pub )?(?!let\b)([^\s:({=]+)(?: \{[^}\n]*\})* :\s(?:.+\n?)*'
        for m in re.finditer(start, whole, re.M):
            if re.search(pattern, m.group(0)):
                found.append((crate, whole.count('\n', 0, m.start()) + 1, '%s: %s' % (path.parent.name, m.group(1))))
    return found


def main():
    p = argparse.ArgumentParser(description=__doc__)
    p.add_argument('--list', action='store_true', help='each place too')
    p.add_argument('--root', type=pathlib.Path, default=ROOT, help='another tree, as that of an older commit')
    p.add_argument('points', nargs='*', type=int)
    a = p.parse_args()
    globals()['ROOT'] = a.root
    load()
    for point in a.points or sorted(POINTS):
        rows = [(label, globals()[finder](what)) for label, finder, what in POINTS[point]]
        lines = {r[:2] for _, found in rows for r in found}
        print('%d: %d places' % (point, len(lines if point < 8 else rows[0][1])))
        for label, found in rows:
            split = collections.Counter(c for c, _, _ in found)
            print('  %4d  %s  (%s)' % (len(found), label, ', '.join('%s %d' % s for s in split.most_common())))
            for r in found if a.list else []:
                print('          %s:%d %s' % r)


if __name__ == '__main__':
    main()
