#!/usr/bin/env python3
# Writes docs/PROMISES.md's table of public functions anew from the sources: each one's promise as its contract states it;
# and behind each file of its table of demands the lines where the theorems or contracts of that row stand.
# S and S′ stand for the five tables at entry and exit, a primed name for a slice at exit. That lent tables stay the
# caller's (`AreSame`) is said once, on the page.
import glob
import os
import re

os.chdir(os.path.join(os.path.dirname(os.path.abspath(__file__)), ".."))
order=[l.split(':')[0].split()[0] for l in open('crates.txt') if ':' in l and not l.startswith('#')]
rows=[]
def short(e):
    for side, mark in (('(?:old|now)', ''), ('new', '′')):
        five = ' '.join(rf'{t}\.{side}' for t in ('ids', 'next', 'state', 'words', 'guards'))
        e=re.sub(rf'\(lent {five}\)|lent {five}|\(held \w+\.{side}\)|held \w+\.{side}','S'+mark,e)
    e=re.sub(r'\(shown \w+\.entry\)|shown \w+\.entry','S',e)
    e=re.sub(r'\b(\w+)\.(?:old|now)\b',r'\1',e); e=re.sub(r'\b(\w+)\.new\b',r'\1′',e)
    e=re.sub(r'\((\w+′?)\)',r'\1',e)
    return e.strip()
# Whether a promise leaves one answer and one content: not if it is no equation but for bounds, or is one of a field, of the
# front of a buffer, or of what `standing` counts of what is kept.
def one(p):
    said=[c.strip('()') for c in re.split(' × | and ',p) if '≤' not in c]
    open_=[c for c in said if '≡' not in c or '→' in c or re.match(r'take |length |result\.',c) or re.search(r'\bstanding\b',c)]
    return 'yes' if said and not open_ else 'part' if p else 'none'
for c in order:
    lib=f'crates/{c}/src/lib.rt'
    if not os.path.exists(lib): continue
    libs=open(lib).read()
    for f in sorted(glob.glob(f'crates/{c}/src/*.rt')):
        m=os.path.basename(f)[:-3]
        if m=='main': continue
        if m!='lib' and not re.search(r'^pub mod '+m+';',libs,flags=re.M): continue
        s=open(f).read()
        for mm in re.finditer(r'^( *)pub (?:extern "C" )?(?:const )?fn (\w+)(?:<[^>]*>)?\(([^{}]*?)\)(?: -> ([^\n{]*?))?\s*((?:\n +(?:requires|ensures)[^\n]*)*)\s*\{',s,flags=re.M):
            indent,name,params,ret,cl=mm.groups()
            # a method's type is that of the block it stands in
            block=re.findall(r'^impl(?:<[^>]*>)? (\w+)',s[:mm.start()],flags=re.M)
            req='requires' in cl
            ens=[e for e in re.findall(r'ensures\*?(?: \w+)? \{ (.*) \}$',cl,flags=re.M) if not e.startswith('AreSame')]
            p=' and '.join(short(e) for e in ens)
            path=f"{c}::{'' if m=='lib' else m+'::'}{block[-1]+'::' if indent else ''}{name}"
            rows.append((path,f"crates/{c}/src/{m}.rt",p,'no' if req else one(p)))
out='| function | promise | one |\n|---|---|---|\n'+'\n'.join(f"| `{a}` | {('`'+p+'`') if p else '-'} | {o} |" for a,f,p,o in rows)+'\n'
page = open('docs/PROMISES.md').read()
begin, end = page.index('| function |'), page.index('\n\n', page.index('| function |')) + 1
page = page[:begin] + out + page[end:]


# The lines of the file on which one of the names is declared.
def lines(path, names):
    found = []
    for n, line in enumerate(open(path), 1):
        declared = re.match(r'\s*(?:abbrev |unfoldable )?(?:pub )?(?:fn )?([\w-]+)(?: :|\()', line)
        if declared and declared[1] in names and ' = ' not in line.split(' : ')[0]:
            found.append(str(n))
    return found


def located(row):
    cells = row.split(' | ')
    names = re.findall(r'`([\w-]+)`', cells[1])
    paths = []
    for path in cells[2].rstrip(' |').split(', '):
        path = path.split(':')[0]
        at = lines(path, names) if os.path.isfile(path) else []
        paths.append(path + (':' + ':'.join(at) if at else ''))
    return ' | '.join([cells[0], cells[1], ', '.join(paths)]) + ' |'


begin = page.index('|---|---|---|\n', page.index('## Demands')) + len('|---|---|---|\n')
end = page.index('\n\n', begin)
page = page[:begin] + '\n'.join(located(row) for row in page[begin:end].split('\n')) + page[end:]
open('docs/PROMISES.md', 'w').write(page)
print(len(rows), 'public functions,', ', '.join(f"{sum(r[3] == k for r in rows)} {k}" for k in ('yes', 'part', 'no', 'none')))
