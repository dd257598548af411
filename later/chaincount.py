"""python3 chaincount.py TREE [BASE]: long chains of places by file; with BASE only files where there are more than in BASE (a commit)."""
import re,sys,subprocess,glob,os
R=re.compile(r'(\s*\.before){6,}|(\s*\.1){8,}|(\s*\.snd){6,}|(\s*\.2){6,}')
tree=sys.argv[1]; base=sys.argv[2] if len(sys.argv)>2 else None
tot=0
for f in sorted(glob.glob(tree+'/crates/**/*.antt',recursive=True)):
    n=len(list(R.finditer(open(f).read()))); r=os.path.relpath(f,tree)
    tot+=n
    b=0
    if base:
        p=subprocess.run(['git','-C',tree,'show',f'{base}:{r}'],capture_output=True,text=True)
        b=len(list(R.finditer(p.stdout))) if p.returncode==0 else 0
    if n>b: print(n,b,r)
print('total',tot)
