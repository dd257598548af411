import re
p='docs/EXCEPTIONS.md'; s=open(p).read()
s=re.sub(r'<<<<<<< HEAD[^\n]*\n.*?=======\n(.*?)>>>>>>> [^\n]*\n', r'\1', s, flags=re.S)
s=s.replace('sheets of their length | regular, pairs, counting, writing, sheet |','sheets of their length | regular, pairs, counting, writing |'); assert '<<<<' not in s; open(p,'w').write(s)
