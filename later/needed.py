"""python3 needed.py TREE PAIRS..: names taken out of a file's imports (lines 'FILE NAME') that the file in TREE names and does not import."""
import re,sys,os
tree=sys.argv[1]
for pf in sys.argv[2:]:
    for l in open(pf):
        f,n=l.split()
        p=os.path.join(tree,f)
        if not os.path.exists(p): continue
        t=open(p).read(); imps='\n'.join(re.findall(r'^(?:ghost )?use .*$',t,flags=re.M)); body=re.sub(r'^(?:ghost )?use .*$','',t,flags=re.M)
        body=re.sub(r'--.*$','',body,flags=re.M)
        def has(x,s):
            return re.search(r'(?<![\w·→-])'+re.escape(x)+r'(?![\w·→-])',s) is not None
        if n.startswith('_') or n.endswith('_'):
            parts=[q for q in n.split('_') if q]; used=all(q in body for q in parts); imp=n in imps
        elif n=='[]': used='[]' in body; imp='[]' in imps
        else: used=has(n,body); imp=has(n,imps)
        if used and not imp: print(tree,f,n)
