import re,sys,glob,subprocess
tree=sys.argv[1]; crates=sys.argv[2:]
for c in crates:
    for p in glob.glob(f'{tree}/crates/{c}/**/*',recursive=True):
        if not p.endswith(('.antt','.rt')): continue
        s=open(p).read()
        for m in re.finditer(r'^(?:ghost )?use ([^\n;{]+)\.\{([^}]*)\};?$',s,re.M):
            rest=s[:m.start()]+s[m.end():]
            for n in m.group(2).split(','):
                n=n.strip()
                core=n.strip('_') if n.startswith('_') or n.endswith('_') else n
                core=n.replace('_','') if n.startswith('_') and n.endswith('_') else n
                body=re.sub(r'--[^\n]*','',rest) if p.endswith('.antt') else rest
                pat=r'(?<![\w\-′·])'+re.escape(core)+r'(?![\w\-′₀-₉])'
                if n in('[]','tt','ℕ'): pat=re.escape(n)
                if core and not re.search(pat,re.sub(r'^(?:ghost )?use [^\n]*$','',body,flags=re.M)):
                    print(p[len(tree)+1:],n)
