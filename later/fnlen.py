import re,sys,subprocess
tree=sys.argv[1]; lim=int(sys.argv[2]) if len(sys.argv)>2 else 40
for f in subprocess.check_output(['git','-C',tree,'ls-files','*.rt'],text=True).split():
    ls=open(tree+'/'+f).read().split('\n'); i=0
    while i<len(ls):
        m=re.match(r'^\s*(pub )?(extern "C" )?fn (\w+)',ls[i])
        if m:
            ind=re.match(r'^\s*',ls[i]).group()
            j=i
            while j<len(ls) and ls[j]!=ind+'}': j+=1
            body=[l for l in ls[i:j+1] if not re.match(r'^\s*(requires|ensures|invariant|decreases|ghost)\b',l)]
            loops=sum(1 for l in body if re.match(r'^\s*(while|loop|for)\b',l))
            if len(body)>lim or loops>1: print(f,m.group(3),len(body),'loops',loops)
            i=j
        i+=1
