import re,pathlib
for line in open('crates.txt'):
    if line.startswith('#'): continue
    name,rest=line.split(':'); rest=rest.split()
    cited=set()
    for p in pathlib.Path('crates/'+name).rglob('*'):
        if p.suffix not in('.rt','.antt'): continue
        t=p.read_text()
        cited|=set(re.findall(r'Rattle·(\w+)\.',t))|set(re.findall(r'\b(\w+)::',t) if p.suffix=='.rt' else [])
    print(name,'not cited:',[r for r in rest if r not in cited])
