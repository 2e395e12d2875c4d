# Per crate: answers in the proof files of functions, those whose whole text is a search that the check itself makes, those whose text stands
# twice or more, and long lines that stand 3 times or more. Run at the top of a tree, or with its path; `-v` lists them.
import re, glob, os, sys, collections
v = '-v' in sys.argv; a = [x for x in sys.argv[1:] if x != '-v']; os.chdir(a[0] if a else '.')
T = collections.Counter()
for c in sorted(p.split('/')[1] for p in glob.glob('crates/*/proofs')):
    text, lines, n, simple, files = collections.defaultdict(list), collections.defaultdict(list), 0, [], 0
    for f in sorted(glob.glob('crates/%s/proofs/*/**/Answers.antt' % c, recursive=True)):
        files += 1; where = f.split('proofs/')[1][:-13]
        s = re.sub(r'--.*', '', open(f).read())
        pubs = set(re.findall(r'^pub ([\w-]+) :', s, re.M))
        for name, b in re.findall(r'^([\w-]+) (?:g )?c =\s*(.*(?:\n[ )]+.*)*)', s, re.M):
            if name not in pubs: continue
            n += 1; b = ' '.join(b.split()); text[b].append(where + ' ' + name)
            if re.fullmatch(r'(search|omega|grind) \(?(rules|arith)\)?', b): simple.append(where + ' ' + name)
        for l in map(str.strip, s.split('\n')):
            if len(l) > 45 and not l.startswith(('use ', 'pub ')): lines[l].append(where)
    two = {b: w for b, w in text.items() if len(w) > 1}; three = {l: w for l, w in lines.items() if len(w) > 2}
    T.update(files=files, answers=n, simple=len(simple), repeated=sum(map(len, two.values())), lines=sum(map(len, three.values())), kinds=len(three))
    if files: print('%s: files %d, answers %d, simple %d, repeated %d in %d texts, long lines %d of %d kinds' % (c, files, n, len(simple), sum(map(len, two.values())), len(two), sum(map(len, three.values())), len(three)))
    if v:
        for b, w in [*two.items(), *three.items()]: print('    x%d %s | %s' % (len(w), b[:100], ', '.join(sorted(set(w)))))
print('files %(files)d, answers %(answers)d, simple %(simple)d, repeated %(repeated)d, long lines %(lines)d of %(kinds)d kinds' % T)
