import re,sys
p=sys.argv[1]; s=open(p).read()
s=re.sub(r'<<<<<<< [^\n]*\n.*?=======\n(.*?)>>>>>>> [^\n]*\n', r'\1', s, flags=re.S)
for a,b in zip(sys.argv[2::2],sys.argv[3::2]): 
    assert a in s; s=s.replace(a,b)
assert '<<<<' not in s; open(p,'w').write(s)
