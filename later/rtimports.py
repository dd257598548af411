"""python3 rtimports.py TREE: imported names that a .rt file does not name."""
import re,sys,subprocess,os
tree=sys.argv[1]
for f in subprocess.check_output(['git','-C',tree,'ls-files','*.rt'],text=True).split():
    t=open(os.path.join(tree,f)).read(); body=re.sub(r'^(pub )?(ghost )?use .*$','',t,flags=re.M)
    for l in t.split('\n'):
        m=re.match(r'^(pub )?(ghost )?use (.*);$',l)
        if not m or m.group(1): continue
        s=m.group(3)
        b=re.match(r'^(\S+?)\.?(?:::)?\{(.*)\}$',s)
        names=[x.strip() for x in b.group(2).split(',')] if b else [s.split('::')[-1].split('.')[-1]]
        for n in names:
            n=n.split(' as ')[-1].strip()
            parts=[q for q in n.split('_') if q] if (n.startswith('_') or n.endswith('_')) else None
            used=all(q in body for q in parts) if parts else re.search(r'(?<![\w·→-])'+re.escape(n)+r'(?![\w·→-])',body)
            if not used: print(f,n)
