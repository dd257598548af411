# firsterrors.py TREE (after its gate): each edit whose comment names a need that is not that of the first error in its log
import glob,re,os,sys
os.chdir(sys.argv[1])
for e in sorted(glob.glob('crates/*/must-fail/*.edit')):
    c=e.split('/')[1]; name=os.path.basename(e)[:-5]
    com=open(e).read().split('\n')[0]
    log='target/must-fail/%s/%s/.log'%(c,name)
    if not os.path.exists(log): print('NOLOG',e); continue
    m=re.search(r"must-fail/[^/]+/[^/]+/(\S+?):\d+:\d+: error: `([^`]+)`",open(log).read())
    if not m: print('NOERR',c,name,'|',com[:150]); continue
    path,decl=m.groups()
    if ("'" in com or 'First error' in com) and decl not in com: print('DIFF',c,name,'| got',path,decl,'|',com[:230])
