"""python3 chains.py TREE CRATE FN..: after `rt goals CRATE` in TREE, for each need of a function the chain of places back from the record that it is asked of."""
import re,glob,sys
tree,crate=sys.argv[1:3]
for fn in sys.argv[3:]:
    f=glob.glob(f'{tree}/target/goals/{crate}/*proofs/proofs/**/{fn}/Lts.antt',recursive=True)
    if not f: print("no",fn); continue
    rec={}; cur=None; needs=[]; L=open(f[0]).read().split('\n')
    for i,l in enumerate(L):
        m=re.match(r'\s+pub record (\S+) : Type 0 where',l)
        if m: cur=m.group(1); rec.setdefault(cur,[None,[]]); continue
        m=re.match(r'\s+pub before : (\S+)',l)
        if m and cur and not cur.endswith('·own'): rec[cur][0]=m.group(1); continue
        m=re.match(r'\s+(Need-\S+) =\s*(.*)',l)
        if m:
            txt=' '.join(x.strip() for x in L[i:i+6]); mm=re.search(r'\(c : (\S+?)\)',txt)
            needs.append((m.group(1), mm.group(1) if mm else '?'))
    print('=====',fn)
    for n,p in needs:
        chain=[]; q=p
        while q and q in rec: chain.append(q); q=rec[q][0]
        print(n,':',' < '.join(chain))
