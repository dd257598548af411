import re,glob,collections
# statements: name : type (joined until next line that starts name = / unfolding)
st=collections.defaultdict(list)
for f in glob.glob('crates/**/*.antt',recursive=True):
    L=open(f).read().split('\n')
    i=0
    while i<len(L):
        m=re.match(r'^(\s*)(?:abbrev |unfoldable )?(?:pub )?([a-zA-Z][^\s:()]*) : (.*)$',L[i])
        if m and 'tie.' not in L[i]:
            t=m.group(3); j=i+1; ind=len(m.group(1))
            while j<len(L) and L[j].strip() and (len(L[j])-len(L[j].lstrip()))>ind: t+=' '+L[j].strip(); j+=1
            t=re.sub(r'\s+',' ',t)
            # normalise var names? skip; canonical rename of bound variables
            vars=[]
            def ren(t):
                names=re.findall(r'[({]([a-zA-Z′ ]+) :',t)
                order=[]
                for g in names:
                    for n in g.split():
                        if n not in order: order.append(n)
                for k,n in enumerate(order):
                    t=re.sub(r'(?<![\w\-′])'+re.escape(n)+r'(?![\w\-′])','v%d'%k,t)
                return t
            t=ren(t)
            if len(t)>30 and '→' in t: st[t].append((f,m.group(2)))
        i+=1
for t,l in st.items():
    fs=set(f for f,_ in l)
    if len(fs)>1 and any('/layers/' in f or '/walk/' in f or '/writing/' in f or '/counting/' in f or 'Layer' in f or '/algorithm/' in f for f in fs):
        print(t[:160]); 
        for x in l: print('    ',x)
