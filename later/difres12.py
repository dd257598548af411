"""difres12.py FILE: settles conflicts of docs/DIFFERENCES.md after landing 12: theirs, with landing 12's sentence on which runs are of which landing and theirs' list after it."""
import re,sys
p=sys.argv[1]; t=open(p).read()
t=re.sub(r'<<<<<<< [^\n]*\n.*?=======\n(.*?)>>>>>>> [^\n]*\n',r'\1',t,flags=re.S)
m=re.search(r"The runs are of landing 11, document 02's \[9\], on an x86-64 machine, with the static library as it is shipped; but `compare/reads\.py` with \[7\], (.*?)\. Times and",t,re.S)
if m:
    t=t[:m.start()]+"The runs are of landing 12, document 02's [7], on an x86-64 machine, with the static library as it is shipped; but `compare/former.py`, `compare/samples.py`, `compare/blank.py`, `compare/stl.py` and `compare/weights.py` at this length are of landing 11 (the code that they call is as it was), "+m.group(1)+". Times and"+t[m.end():]
open(p,'w').write(t)
