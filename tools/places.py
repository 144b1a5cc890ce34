#!/usr/bin/env python3
"""Lists the places of each point of docs/DESIGN-PASS.md in crates/*/src and crates/*/proofs: tools/places.py [POINT]. Run it at the top."""
import collections, difflib, glob, itertools, re, sys

CODE = {}
for path in sorted(glob.glob('crates/*/src/**/*.rt', recursive=True)):
    CODE[path[len('crates/'):]] = open(path).read()

FN = re.compile(r'^( *)(?:pub(?:\(crate\))? )?(?:const )?(?:extern "C" )?fn (\w+)(<[^(]*>)?\(', re.M)


def functions():
    """(file, line, name, signature with clauses, body) of each function."""
    for name, text in CODE.items():
        for m in FN.finditer(text):
            rest, depth, i = text[m.start():], 0, m.end() - 1 - m.start()
            while True:
                depth += {'(': 1, ')': -1}.get(rest[i], 0)
                i += 1
                if depth == 0:
                    break
            head = re.match(r'[^{;\n]*\{\n', rest[i:]) or re.match(r'.*?\n' + m.group(1) + r'\{\n', rest[i:], re.S)
            if not head:
                continue
            start = i + head.end()
            end = re.search(r'^' + m.group(1) + r'\}', rest[start:], re.M)
            if end:
                yield name, text[:m.start()].count('\n') + 1, m.group(2), rest[:start], rest[start:start + end.start()]


def bare(text):
    return re.sub(r'//.*', '', text)


def point1():
    for name, text in CODE.items():
        for m in re.finditer(r'^(?:pub )?enum (\w+) \{\n(.*?)\n\}', text, re.S | re.M):
            variants = re.findall(r'^    (\w+)(\([^\n]*\))?', bare(m.group(2)), re.M)
            if len(variants) <= 3 and any(v[1] for v in variants):
                yield name, text[:m.start()].count('\n') + 1, 'enum ' + m.group(1) + ': ' + ', '.join(a + b for a, b in variants)
        for m in re.finditer(r'\b(ro|reason|kind|tag|step|level|read_only): usize', text):
            yield name, text[:m.start()].count('\n') + 1, 'number for a kind or a flag: ' + m.group(1)
        for m in re.finditer(r'^    Broken\(usize.*', text, re.M):
            yield name, text[:m.start()].count('\n') + 1, 'number for a reason: Broken'
    for name, line, fn, sig, body in functions():
        b = bare(body)
        tail = b.strip().split('\n')[-1].strip()
        if re.search(r'-> usize', sig) and (re.search(r'return ([2-9]|[1-6][0-9]);', b) or tail in ('4', '1')):
            yield name, line, 'number for a refusal or an answer: fn ' + fn
        tests = collections.Counter(re.findall(r'if ([\w.]+) == [0-9]+ \{', b))
        for what, n in tests.items():
            if n >= 2:
                yield name, line, 'ladder on a number: fn %s, %s' % (fn, what)


def normal(text):
    t = bare(text)
    t = re.sub(r'\b(u8|u16|u32|u64|usize)\b', 'T', t)
    t = re.sub(r'\b0x[0-9a-f_]+\b|\b[0-9][0-9_]*\b', '#', t)
    t = re.sub(r'b?"[^"]*"', '"', t)
    t = re.sub(r'([a-z_])[0-9]+\b', r'\1', t)
    return re.sub(r'\s+', ' ', t).strip()


def point2():
    known = []
    for name, line, fn, sig, body in functions():
        if name.startswith('hostiledisk_c/'):
            continue
        n = normal(body)
        names = {}
        # names of parameters and variables by their order
        n2 = re.sub(r'\b[a-z_]\w*\b', lambda m: names.setdefault(m.group(0), 'v%d' % len(names)), n)
        if len(n2) >= 20:
            known.append((name, line, fn, n, n2))
    for a, b in itertools.combinations(known, 2):
        if a[4] == b[4] or (min(len(a[3]), len(b[3])) > 60 and difflib.SequenceMatcher(None, a[3], b[3], autojunk=False).quick_ratio() > 0.93 and difflib.SequenceMatcher(None, a[3], b[3], autojunk=False).ratio() > 0.9):
            yield a[0], a[1], 'fn %s ~ %s:%d fn %s' % (a[2], b[0], b[1], b[2])


def point3():
    for name, text in CODE.items():
        for i, l in enumerate(text.split('\n')):
            if re.match(r'\s*(while|loop)\b', l):
                yield name, i + 1, l.strip()


def point4():
    for name, line, fn, sig, body in functions():
        if re.search(r'^(wide|flag|one|job_tag|job_sector|job_of|row_of|phase_of|seen_of|smaller|differ|walk|numbers)$', fn):
            yield name, line, 'conversion, comparison or making by hand: fn ' + fn
    for name, text in CODE.items():
        if name.startswith(('tour/', 'vectors/')):
            for i, l in enumerate(text.split('\n')):
                if re.search(r'(say::)?\b(text|number|numbers|hex|line|nth|part)\(rt|write_all\(', l) and not re.match(r'\s*(pub )?fn ', l):
                    yield name, i + 1, 'printing: ' + l.strip()


def point5():
    facts = collections.defaultdict(list)
    for name, line, fn, sig, body in functions():
        for m in re.finditer(r'requires ?\w* \{ (.*) \}$', sig, re.M):
            fact = re.sub(r'\.(old|now)\b', '.now', m.group(1))
            facts[re.sub(r'\b(s|state)\.now', 's.now', fact)].append((name, line, fn))
    for fact, where in facts.items():
        if len(where) >= 3:
            for name, line, fn in where:
                yield name, line, 'fact in %d contracts: %s: fn %s' % (len(where), fact, fn)
    groups = collections.defaultdict(list)
    for name, line, fn, sig, body in functions():
        m = re.search(r'\(([^)]*)\)', sig, re.S)
        ps = frozenset(p.split(':')[0].strip() for p in m.group(1).split(',') if ':' in p)
        groups[ps].append((name, line, fn))
    sets = collections.Counter()
    for a in groups:
        for b in groups:
            if len(a & b) >= 3:
                sets[a & b] = 0
    for s in list(sets):
        sets[s] = sum(len(w) for p, w in groups.items() if s <= p)
    for s, n in sorted(sets.items(), key=lambda x: sorted(x[0])):
        if n >= 4 and not any(s < t and sets[t] >= 4 and sets[t] * 2 >= n for t in sets):
            yield '', 0, 'parameters together in %d functions: %s' % (n, ', '.join(sorted(s)))


def point6():
    for name, text in CODE.items():
        for i, l in enumerate(text.split('\n')):
            if re.search(r'\[[23] \* |say::nth|b"[^"]*\|[^"]*\|', l):
                yield name, i + 1, l.strip()


def point7():
    for name, line, fn, sig, body in functions():
        calls = re.findall(r'if \w+ == [0-9]+ \{\s*return (\w+::\w+)\(', body) + re.findall(r'^\s*[0-9]+ => (\w+::\w+)\(', body, re.M)
        if len(calls) >= 3:
            yield name, line, 'switch on a step: fn ' + fn
        if re.search(r'\bfn\(|dyn ', sig):
            yield name, line, 'function pointer or dyn: fn ' + fn


def point8():
    total = collections.Counter()
    for path in sorted(glob.glob('crates/*/proofs/**/Answers.antt', recursive=True)):
        total[path.split('/')[1]] += len(re.findall(r'^pub \S+ : goal\.', open(path).read(), re.M))
    for crate, n in total.items():
        yield crate, n, 'answers'


POINTS = [point1, point2, point3, point4, point5, point6, point7, point8]
for k, point in enumerate(POINTS, 1):
    if len(sys.argv) > 1 and sys.argv[1] != str(k):
        continue
    found = list(point())
    print('point %d: %d' % (k, len(found) if k != 8 else sum(f[1] for f in found)))
    for name, line, what in found:
        place = '%s %d' % (name, line) if k == 8 else '%s:%d' % (name, line) if name else '-'
        print('  %s: %s' % (place, what))
