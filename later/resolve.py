# resolve.py FILE k:how ...  — how: o(urs) t(heirs) ot (both, ours first) to, or @text
import re,sys
p=sys.argv[1]; hows=sys.argv[2:]
s=open(p).read(); i=-1
def rep(m):
    global i; i+=1
    h=hows[i] if i<len(hows) else hows[-1]
    o,t=m.group(1),m.group(2)
    return {'o':o,'t':t,'ot':o+t,'to':t+o,'ob':o+'\n'+t}.get(h, h[1:].replace('\\n','\n') if h[0]=='@' else None)
s=re.sub(r'<<<<<<< [^\n]*\n(.*?)=======\n(.*?)>>>>>>> [^\n]*\n',rep,s,flags=re.S)
open(p,'w').write(s); print(p,i+1)
