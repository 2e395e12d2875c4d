# Lemmas in crates/*/proofs/*.antt that no proof reaches. Roots: the proof files of functions, lemmas that a function cites by `using(..)`,
# laws (the type is a name of specs/), and names that README or docs/ (PORT.md and DESIGN-PASS.md aside) print in backticks; so is all of a
# file that has no `pub` (checks of specs/, as listing's Sample). Run at the top of a tree, or with its path.
import re, glob, os, sys
os.chdir(sys.argv[1] if len(sys.argv) > 1 else '.')
W = r"[\w'≡≢→ᴰ₂-]"
def word(n): return r"(?<!%s)%s(?!%s)" % (W[1:-1].join('[]'), re.escape(n), W[1:-1].join('[]'))
DECL = re.compile(r"^((?:pub |abbrev |record |data |ruleset )*)([A-Za-z]%s*)\s*[:({]" % W)
decl, uses = {}, {}
for f in glob.glob('crates/*/proofs/**/*.antt', recursive=True):
    src = re.sub(r'--.*', '', open(f).read())
    uses[f] = {}
    for m, ns in re.findall(r'^\s*use (\S+?)\.\{([^}]*)\}', src, re.M):
        p = re.match(r'Rattle\.(\w+)\.proofs\.(.+)$', m)
        for n in ns.split(','):
            if p: uses[f][n.strip()] = 'crates/%s/proofs/%s.antt' % (p[1], p[2].replace('.', '/'))
    blocks, mods, cur = {}, [], None
    for line in src.split('\n'):
        ind, s = len(line) - len(line.lstrip()), line.strip()
        if not s: continue
        while mods and ind <= mods[-1]: mods.pop()
        depth = mods[-1] + 2 if mods else 0
        if ind == depth:
            if s.startswith('module '): mods.append(ind); cur = None; continue
            if re.match(r'(use|pub mod|pub use)\b', s): cur = None; continue
            d = DECL.match(s)
            if d and not s.startswith('unfolding') and d[2] not in blocks: blocks[d[2]] = ['', d[1]]; cur = d[2]
            elif s.startswith('unfolding') or s in ')]}' : pass
            else:
                e = re.match(r"([A-Za-z]%s*)" % W, s)
                if e and e[1] in blocks: cur = e[1]
        if cur: blocks[cur][0] += line + '\n'
    decl[f] = blocks
lemma = sorted(f for f in decl if re.match(r'crates/\w+/proofs/\w+\.antt$', f) and not f.endswith('/Lib.antt'))
docs = ''.join(open(f).read() for f in glob.glob('docs/**/*.md', recursive=True) + ['README.md'] if not re.search('PORT|DESIGN-PASS', f))
specs = ''.join(open(f).read() for f in glob.glob('crates/*/specs/*.antt'))
laws = set(re.findall(r"^\s*(?:abbrev |pub |record )*([A-Z]\w*)\s*:", specs, re.M))
seen, todo = set(), []
def add(f, n):
    if n in decl.get(f, {}) and (f, n) not in seen: seen.add((f, n)); todo.append((f, n))
for f in decl:
    for n, (b, k) in decl[f].items():
        t = re.match(r"[^:]*:\s*([A-Z]\w*)\s*$", b.split('\n')[0])
        if f not in lemma or not any('pub' in x[1] for x in decl[f].values()) or '`%s`' % n in docs or (t and t[1] in laws and 'abbrev' not in k): add(f, n)
for f in glob.glob('crates/*/src/*.rt'):
    for crate, m, n in re.findall(r'(\w+)::proofs::(\w+)::(\w+)', open(f).read()):
        add('crates/%s/proofs/%s.antt' % (f.split('/')[1] if crate == 'crate' else crate, m), n)
while todo:
    f, n = todo.pop()
    b = decl[f][n][0]
    for m in decl[f]:
        if re.search(word(m), b): add(f, m)
    for m, g in uses[f].items():
        if re.search(word(m), b): add(g, m)
total = 0
for f in lemma:
    dead = [n for n in decl[f] if (f, n) not in seen]
    total += len(dead)
    if dead: print('%s %d of %d: %s' % (f, len(dead), len(decl[f]), ' '.join(dead)))
print('unused %d of %d lemmas in %d files' % (total, sum(len(decl[f]) for f in lemma), len(lemma)))
