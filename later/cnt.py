import re,glob,sys,os
R=re.compile(r'(\s*\.before){6,}|(\s*\.1){8,}|(\s*\.snd){6,}|(\s*\.2){6,}')
tot=0
for c in sys.argv[1:]:
    n=0
    for f in sorted(glob.glob(f'crates/{c}/**/*.antt',recursive=True)):
        t=open(f).read(); k=len(list(R.finditer(t))); n+=k
        m=max([len(re.findall(r'\.\w+',x.group(0))) for x in re.finditer(r'(\s*\.before)+',t)] or [0])
        if k or m>5: print('  ',k,'max',m,len(t.splitlines()),f)
    print(c,n); tot+=n
print('total',tot)
