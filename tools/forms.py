#!/usr/bin/env python3
"""forms.py [POINT]: the places of each point of docs/DESIGN-PASS.md in crates/*/src, and how many; with a point, each place."""
import collections
import glob
import re
import sys

LINES = {
    1: r'^ *(pub )?enum |^ +(pub )?[a-z_]+: bool,$|\bRefused\(|-> u32$|return [0-9]+;$|answer: u32,$|!= 0 \{$',
    2: r'\bfn [a-z]+_(f32|u32)\b|\bfn (count_at_most|count_equal|one_at_most|one_equal|larger|lesser|smaller|shorter|bits|begins_with'
       r'|is_set|is_steep|columns|rows|first_kept|last_kept|seven_before|seven_behind|larger_score|smaller_score|with_point|near'
       r'|corner_above|numbers_above|fetch|put|copy_down|gather|gather_known|gather_by|gathered)\b|\bstruct (Corners|Bounds|Reading|Choice'
       r'|AxisReading|KeptRange|Line|Remaining)\b',
    3: r'^ *(for [a-z_]+ in [^;{]*\.\.|while |loop )',
    4: r'\bfn (larger|lesser|smaller|shorter|less|either|gap|one_less|one_at_most|one_equal|at_most|bad|near|bits|wide|group_size'
       r'|begins_with|is_digit|digit_of|byte_at|digit|decimal|joined|pixel|pitched_of|spacing|bounds_of|located|alone|value|record)\b',
    6: r'^ +[a-z_]+: &(mut )?\[[a-z0-9]+; [A-Za-z:_]+\],$|\(out: &mut \[[a-z0-9]+\], at: usize|\bn: usize, to: &mut|, n: usize\)'
       r'|ensures counted|^type [A-Z]',
    7: r'\} else if [a-z]+ == [0-9]+ \{|^ *match ',
}


def files():
    return sorted(glob.glob('crates/*/src/**/*.rt', recursive=True))


def by_lines(pattern):
    for f in files():
        for n, l in enumerate(open(f), 1):
            if not l.strip().startswith(('//', 'ghost use')) and re.search(pattern, l):
                yield '%s:%d: %s' % (f, n, l.strip())


def functions():
    for f in files():
        text = open(f).read()
        for m in re.finditer(r'^( *)(?:pub(?:\(crate\))? )?(?:extern "C" )?fn (\w+)(?:<[^(]*>)?\(([^)]*)\)', text, re.M):
            params = [p for p in m.group(3).split(',') if p.strip() and 'self' not in p]
            end = re.search('\n%s\\{\n|;\n| \\{\n' % m.group(1), text[m.end():])
            clauses = text[m.end():m.end() + (end.start() if end else 0)]
            yield f, text.count('\n', 0, m.start()) + 1, m.group(2), params, clauses


def facts():
    """Names of facts in the `requires` of three or more functions of a crate."""
    seen = collections.defaultdict(set)
    for f, n, name, params, clauses in functions():
        for c in re.findall(r'requires\b[^{]*\{(.*?)\}(?=\s*(?:requires|ensures|$))', clauses, re.S):
            for w in set(re.findall(r'\b([A-Z][A-Za-z0-9]+)\b', c)):
                seen[(f.split('/')[1], w)].add(name)
    for (crate, fact), where in sorted(seen.items()):
        if len(where) >= 3:
            yield '%s: %s in %d functions: %s' % (crate, fact, len(where), ', '.join(sorted(where)))


def point(k):
    if k == 5:
        long = ['%s:%d: %s has %d parameters' % (f, n, name, len(p)) for f, n, name, p, c in functions() if len(p) >= 6]
        return list(facts()) + long
    if k == 8:
        return sorted(glob.glob('crates/*/proofs/**/Proof.antt', recursive=True))
    return list(by_lines(LINES[k]))


if sys.argv[1:] in (['-h'], ['--help']):
    print(__doc__)
    sys.exit()
for k in ([int(sys.argv[1])] if sys.argv[1:] else range(1, 9)):
    found = point(k)
    print('point %d: %d places' % (k, len(found)))
    if sys.argv[1:]:
        print('\n'.join(found))
