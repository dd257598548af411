import sys,re,subprocess,pathlib
tree=sys.argv[1]; files=sys.argv[2:]
out=subprocess.run(['python3','/tmp/help/imports.py',tree,*files],capture_output=True,text=True).stdout
for line in out.splitlines():
    f,name=line.split()[:2]
    p=pathlib.Path(tree)/f; t=p.read_text()
    def fix(m):
        names=[x.strip() for x in m.group(2).split(',')]
        if name not in names: return m.group(0)
        names.remove(name)
        return '' if not names else '%s{%s}\n'%(m.group(1),', '.join(names))
    t=re.sub(r'^(use [^\n{]*\.)\{([^}\n]*)\}\n',fix,t,flags=re.M)
    p.write_text(t)
