# Per crate: `requires` texts that stand in 3 or more functions, and groups of parameters (name and type) that travel together through 3 or
# more functions. Run at the top of a tree, or with its path; `-v` lists the functions. Handles (`Print`, readers, writers) are left out.
import re, glob, os, sys, collections, itertools
v = '-v' in sys.argv; a = [x for x in sys.argv[1:] if x != '-v']; os.chdir(a[0] if a else '.')
FN = re.compile(r'^ *(?:pub(?:\(crate\))? )?(?:const )?(?:extern "C" )?fn (\w+)(?:<[^>\n]*>)?\(', re.M)
T = collections.Counter()
for c in sorted({p.split('/')[1] for p in glob.glob('crates/*/src/*.rt')}):
    req, fns = collections.defaultdict(list), []
    for f in sorted(glob.glob('crates/%s/src/*.rt' % c)):
        s = open(f).read(); heads = list(FN.finditer(s))
        for m, nxt in itertools.zip_longest(heads, heads[1:]):
            e, depth = m.end(), 1
            while depth: depth += {'(': 1, ')': -1}.get(s[e], 0); e += 1
            name = '%s:%d %s' % (os.path.basename(f), s.count('\n', 0, m.start()) + 1, m[1])
            ps = [' '.join(p.split()) for p in re.split(r',(?![^\[(]*[\])])', s[m.end():e - 1]) if p.strip()]
            fns.append((name, {p for p in ps if not re.search(r'^&?(mut )?self$|impl Print|&mut [RW]$', p)}))
            for q in re.findall(r'^ *requires\s*(?:\w+\s*)?\{ (.*) \}$', s[e:nxt.start() if nxt else len(s)], re.M): req[' '.join(q.split())].append(name)
    for k, fs in sorted(req.items()):
        if len(fs) > 2:
            T['clauses'] += 1; T['places'] += len(fs)
            print('%s requires x%d: %s' % (c, len(fs), k)); v and print('    ' + ', '.join(fs))
    cand = {frozenset(p & q) for (_, p), (_, q) in itertools.combinations(fns, 2)}
    grp = {g: [n for n, p in fns if g <= p] for g in cand if len(g) > 1}
    for g, n in sorted(grp.items(), key=lambda x: (-len(x[1]), sorted(x[0]))):
        if len(n) > 2:
            T['groups'] += 1
            print('%s group x%d: (%s)' % (c, len(n), ', '.join(sorted(g)))); v and print('    ' + ', '.join(n))
print('clauses %d in %d functions; groups %d' % (T['clauses'], T['places'], T['groups']))
