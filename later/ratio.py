import collections,sys
d=collections.OrderedDict()
for l in open(sys.argv[1]):
    p=[x.strip() for x in l.split('|')]
    if len(p)>9 and p[2].isdigit(): d.setdefault((p[1],p[2],p[3]),[]).append((float(p[6]),float(p[7]),float(p[8])))
for k,v in d.items():
    o=min(a for a,_,_ in v); b=min(b for _,b,_ in v); r=sorted(a/b for a,b,_ in v)
    print(k,o,b,round(o/b,3),[round(x,3) for x in r])
