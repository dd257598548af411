import re,sys
def resolve(p, *hows):
    s=open(p).read(); i=[-1]
    def rep(m):
        i[0]+=1; h=hows[min(i[0],len(hows)-1)]
        o,t=m.group(1),m.group(2)
        return h(o,t) if callable(h) else {'o':o,'t':t,'ot':o+t,'to':t+o}.get(h,h)
    s=re.sub(r'<<<<<<< [^\n]*\n(.*?)=======\n(.*?)>>>>>>> [^\n]*\n',rep,s,flags=re.S)
    open(p,'w').write(s); print(p,i[0]+1)
