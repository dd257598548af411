import re,collections,sys
t=collections.Counter();n=collections.Counter()
for l in open(sys.argv[1]):
    m=re.search(r'must-fail (\w+)/(\w+): refused.*; (\d+) s\)',l)
    if m: t[m[1]]+=int(m[3]);n[m[1]]+=1
    m=re.search(r'rt: (\w+) proved \((\d+) s\)',l)
    if m: t['crate '+m[1]]+=int(m[2])
e=sum(v for k,v in t.items() if not k.startswith('crate')); c=sum(v for k,v in t.items() if k.startswith('crate'))
print('edits',e,'crates',c)
for k,v in t.most_common(60): print(k,n[k],v, round(v/max(1,n[k])))
