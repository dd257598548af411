import re,glob,sys
root=sys.argv[1] if len(sys.argv)>1 else '.'
imports={}
allt={}
for f in glob.glob(root+'/crates/**/*',recursive=True):
    if f.endswith('.antt') or f.endswith('.rt'):
        allt[f]=open(f).read()
for f,t in allt.items():
    for m in re.finditer(r'use Rattle·(\w+)(?:·specs|·proofs)?\.((?:specs|proofs)[\w.\-]*?)(?:\.\{([^}]*)\}| as (\S+);?)',t):
        x,path,names,al=m.groups()
        p=f'{root}/crates/{x}/'+path.replace('.','/')+'.antt'
        if names is None: imports.setdefault(p,set()).add('*'); continue
        for n in names.split(','):
            imports.setdefault(p,set()).add(n.strip().split(' as ')[0])
for f,t in sorted(allt.items()):
    if not f.endswith('.antt') or '/specs/' not in f: continue
    c=f.split('/crates/')[1].split('/')[0]
    if c not in ('layers','walk','counting','writing','algorithm','codes','vertices','cells','regular','pairs','cases','judge','agreement','naming','laws'): continue
    if '*' in imports.get(f,()): continue
    un=[]
    for m in re.finditer(r'^\s*(?:(?:abbrev|unfoldable) )?pub (?:(?:abbrev|unfoldable) )?(record )?([^\s:({]+)',t,re.M):
        ind=len(m.group(0))-len(m.group(0).lstrip())
        n=m.group(2)
        if n in ('mod','use','record'): continue
        if n not in imports.get(f,set()):
            # field of record?
            pre=t[:m.start()].split('\n')
            un.append(n)
    # drop record fields: names whose declaration indentation inside record
    rec=set()
    for r in re.finditer(r'^(\s*)pub record [^\n]*\n((?:\1 +[^\n]*\n|\n)*)',t,re.M):
        for fm in re.finditer(r'pub (\S+) :',r.group(2)): rec.add(fm.group(1))
    un=[n for n in un if n not in rec]
    if un: print(f.replace(root+'/',''),un)
