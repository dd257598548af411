"""python3 dead.py TREE: names of .antt files that nothing names but their own definition."""
import re,sys,subprocess,os
from collections import Counter
tree=sys.argv[1]
fs=[f for f in subprocess.check_output(['git','-C',tree,'ls-files','*.rt','*.antt'],text=True).split()]
text={f:re.sub(r'--.*$','',open(os.path.join(tree,f)).read(),flags=re.M) for f in fs}
tok=re.compile(r"[^\s(){};,.⌜⌝\[\]]+")
cnt=Counter()
for f,t in text.items(): cnt.update(tok.findall(t))
for f,t in text.items():
    if not f.endswith('.antt') or f.endswith('/Proof.antt') : continue
    ls=t.split('\n')
    for i,l in enumerate(ls):
        m=re.match(r'^(\s*)(?:unfoldable )?(?:abbrev )?(?:pub )?([^\s:({]+) :',l)
        if not m: continue
        n=m.group(2)
        if n in ('use','module','record','data','unfolding','where','let','in') : continue
        # in a record?
        j=i; rec=False
        while j>0:
            j-=1
            mm=re.match(r'^(\s*)\S',ls[j])
            if mm and len(mm.group(1))<len(m.group(1)):
                rec = bool(re.search(r'\b(record|data)\b',ls[j])) or 'where' in ls[j] and 'record' in ls[j]
                break
        if rec: continue
        own=0
        k=i+1
        # own clauses and recursion
        body=[]
        while k<len(ls):
            if ls[k].strip()=='' : 
                k+=1; continue
            ind=len(re.match(r'^\s*',ls[k]).group())
            if ind<len(m.group(1)): break
            if ind==len(m.group(1)) and not ls[k].strip().startswith(n+' ') and not ls[k].strip().startswith('unfolding') and not ls[k].strip()==n and not ls[k].strip().startswith('→'): break
            body.append(ls[k]); k+=1
        own=sum(tok.findall(b).count(n) for b in [ls[i]]+body)
        if cnt[n]-own<=0: print(f,n)
