"""prof.py CRATE: in a tree with the crate's rt dev state, touches each proof file in turn and times rt dev (user+sys seconds of rattle)."""
import subprocess,sys,glob,os,resource,re
crate=sys.argv[1]
def run():
    a=resource.getrusage(resource.RUSAGE_CHILDREN)
    subprocess.run(['rt','dev',crate],stdout=subprocess.DEVNULL,stderr=subprocess.DEVNULL)
    b=resource.getrusage(resource.RUSAGE_CHILDREN)
    return b.ru_utime+b.ru_stime-a.ru_utime-a.ru_stime
run(); base=run(); print('base',round(base,1),flush=True)
out=[]
for f in sorted(glob.glob(f'crates/{crate}/proofs/**/*.antt',recursive=True)+glob.glob(f'crates/{crate}/specs/**/*.antt',recursive=True)):
    if not (f.endswith('Proof.antt')): continue
    t=open(f).read()
    open(f,'w').write(t+'\n-- x\n')
    d=run()-base
    open(f,'w').write(t)
    out.append((d,f)); print(round(d,1),f,flush=True)
print('TOTAL')
for d,f in sorted(out,reverse=True)[:12]: print(round(d,1),f)
