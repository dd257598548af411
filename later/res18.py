import re
CON=re.compile(r'<<<<<<< HEAD\n(.*?)=======\n(.*?)>>>>>>> [^\n]*\n',re.S)
def resolve(p,f):
    s=open(p).read()
    n=[0]
    def g(m):
        n[0]+=1
        return f(n[0],m.group(1),m.group(2))
    s=CON.sub(g,s)
    assert '<<<<<<<' not in s and '>>>>>>>' not in s,p
    open(p,'w').write(s)
def layer(ours,theirs):
    """24 and 25 of theirs, 26 of ours"""
    lines=theirs.splitlines(True)
    keep=[l for l in lines if not re.match(r'\W*26\b',l)]
    assert len(keep)==len(lines)-1,lines
    return ''.join(keep)+ours
def readme(k,ours,theirs):
    if k==1:
        t=theirs.splitlines(True); assert t[0].startswith('12.') and t[1].startswith('13.')
        return ours+''.join(t[1:])
    return layer(ours,theirs)
resolve('README.md',readme)
resolve('bindings/rust/src/refusals.rs',lambda k,o,t: layer(o,t))
resolve('docs/refusals.tsv',lambda k,o,t: layer(o,t))
resolve('include/sirveshan.h',lambda k,o,t: layer(o,t))
resolve('compare/README.md',lambda k,o,t: ''.join(l for l in t.splitlines(True) if '`setup.py`' in l)+o)
def rustreadme(k,o,t):
    a=[l for l in o.splitlines(True) if '`extract`' in l]
    return ''.join(a)+''.join(l for l in t.splitlines(True) if '`extract`' not in l)
resolve('bindings/rust/README.md',rustreadme)
def api(k,o,t):
    if k==1:
        return t.replace('the same with a summary by layer: all alike but the reads','the same with a summary by layer: layers on one side are passed over')
    return layer(o,t)
resolve('docs/API.md',api)
def diff(k,o,t):
    return t
resolve('docs/DIFFERENCES.md',diff)
def kept(k,o,t):
    return o.replace('judgeStar','judgeMeeting')
resolve('crates/promises/specs/LayeredKept.antt',kept)
p='crates/promises/specs/LayeredKept.antt'; s=open(p).read(); print(s.count('judgeStar')); 
