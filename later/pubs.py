"""python3 pubs.py TREE: public names of .antt and .rt files that no other file names."""
import re,sys,subprocess,os
tree=sys.argv[1]
fs=subprocess.check_output(['git','-C',tree,'ls-files','*.rt','*.antt','*.edit'],text=True).split()
text={f:open(os.path.join(tree,f)).read() for f in fs}
words={f:set(re.findall(r"[^\s(){};,.⌜⌝\[\]]+",re.sub(r'--.*$','',t,flags=re.M))) for f,t in text.items()}
from collections import defaultdict
where=defaultdict(set)
for f,w in words.items():
    if f.endswith('.edit'): continue
    for x in w: where[x].add(f)
for f,t in text.items():
    if f.endswith('.edit'): continue
    if f.endswith('.antt'):
        if '/proofs/' in f and f.endswith('Proof.antt'): continue
        names=re.findall(r'^\s*(?:abbrev )?pub (?:record |data |abbrev |module )?([^\s:({]+)',t,flags=re.M)
    else:
        names=re.findall(r'^pub (?:fn|struct|enum|const) (\w+)',t,flags=re.M)
    for n in names:
        if n.startswith('_') or len(n)<2: continue
        if not (where[n]-{f}): print(f,n)
