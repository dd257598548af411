import re,subprocess,sys,os,glob
for f in glob.glob('crates/*/src/**/*.rt',recursive=True):
    L=open(f).read().split('\n')
    i=0
    while i<len(L):
        m=re.match(r'\s*(pub )?fn (\w+)',L[i])
        if m:
            # count until closing brace at col 0
            j=i;n=0
            while L[j]!='}' :
                s=L[j].strip()
                if not re.match(r'(requires|ensures)\b',s): n+=1
                j+=1
            n+=1
            if n>38: print(f,m.group(2),n)
            i=j
        i+=1
