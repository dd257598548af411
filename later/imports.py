"""python3 imports.py TREE FILES..: takes out imported names that a file does not name (names with `as` are left alone)."""
import re,sys,os
tree=sys.argv[1]
for f in sys.argv[2:]:
    p=os.path.join(tree,f); t=open(p).read(); body=re.sub(r'^use .*$','',t,flags=re.M)
    out=[]
    for l in t.split('\n'):
        m=re.match(r'^use (\S+?)\.\{([^}]*)\}$',l)
        if m:
            keep=[]
            for n in [x.strip() for x in m.group(2).split(',')]:
                if ' as ' in n: keep.append(n); continue
                if '_' in n and re.fullmatch(r'_?[^_]+_?(?:[^_]+_?)*',n) and (n.startswith('_') or n.endswith('_')):
                    parts=[q for q in n.split('_') if q]; used=all(q in body for q in parts)
                else: used=re.search(r'(?<![\w·→-])'+re.escape(n)+r'(?![\w·→-])',body) is not None
                if used: keep.append(n)
                else: print(f,n)
            if not keep: continue
            l='use %s.{%s}'%(m.group(1),', '.join(keep))
        out.append(l)
    open(p,'w').write('\n'.join(out))
