"""difres.py FILE: settles conflicts of docs/DIFFERENCES.md: theirs, with the figures and the sentence of landing 11."""
import re,sys
p=sys.argv[1]; t=open(p).read()
t=re.sub(r'<<<<<<< [^\n]*\n.*?=======\n(.*?)>>>>>>> [^\n]*\n',r'\1',t,flags=re.S)
t=t.replace('1,372 records of at most 16','1,829 records of at most 16')
m=re.search(r"The runs are of landing 6, on an x86-64 machine, with the static library as it is shipped; .*?`compare/largest\.py` with \[9\], (.*?)\. Times and",t,re.S)
if m:
    rest=m.group(1)
    t=t[:m.start()]+"The runs are of landing 11, document 02's [9], on an x86-64 machine, with the static library as it is shipped; but "+rest+". Times and"+t[m.end():]
open(p,'w').write(t)
print(re.search(r'The runs are of landing.*?Times',t).group(0))
