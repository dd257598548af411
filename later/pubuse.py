import re,subprocess,glob,os
files=glob.glob('crates/**/*.antt',recursive=True)+glob.glob('crates/**/*.rt',recursive=True)
text={f:open(f).read() for f in files}
def base(c):
    return
for c in ['layers','counting','writing','algorithm','walk','regular','pairs','codes','vertices','cells','cases','agreement','naming','judge','laws','model','promises']:
    for f in glob.glob(f'crates/{c}/specs/**/*.antt',recursive=True):
        for m in re.finditer(r'^\s*(?:abbrev |unfoldable )?pub (?!record|mod |use )(?:abbrev |unfoldable )?([^\s:]+)\s*:',text[f],re.M):
            n=m.group(1)
            pat=re.compile(r'(?<![\w\-′])'+re.escape(n)+r'(?![\w\-′])')
            others=[g for g in files if g!=f and pat.search(text[g])]
            if not others:
                own=len(pat.findall(text[f]))
                print(c,f,n,own)
