"""SRC=tree python3 edit.py CRATE [EDIT..]: applies must-fail edits one by one, as rt does (each old: and new: is ONE line), in a copy of the tree and prints the first error of a check of that crate."""
import os, sys, shutil, subprocess, pathlib
src = pathlib.Path(os.environ['SRC']); crate = sys.argv[1]
work = pathlib.Path('/tmp/mf2-' + src.name)
folder = src/'crates'/crate/'must-fail'
names = sys.argv[2:] or sorted(p.stem for p in folder.glob('*.edit'))
for name in names:
    if work.exists():
        shutil.rmtree(work)
    work.mkdir()
    for part in ('crates', 'crates.txt', 'target'):
        if (src/part).exists(): subprocess.run(['cp', '-a', str(src/part), str(work/part)], check=True)
    print('=====', crate, name)
    file = old = None
    for line in (folder/(name+'.edit')).read_text().splitlines():
        if line.startswith('file: '): file = line[6:]
        elif line.startswith('old: '): old = line[5:]
        elif line.startswith('new:'):
            new = line[4:].removeprefix(' ')
            path = work/'crates'/crate/file; text = path.read_text()
            if text.count(old) != 1: print('BAD EDIT: matches', text.count(old), old)
            path.write_text(text.replace(old, new, 1))
        elif line and not line.startswith('#'): print('BAD EDIT: a line that rt passes over:', line)
    out = subprocess.run(['rt', 'check', crate], cwd=work, capture_output=True, text=True)
    lines = (out.stdout + out.stderr).splitlines(); open('/tmp/help/setup-edit-full.log','w').write(chr(10).join(lines))
    start = next((i for i, l in enumerate(lines) if 'error' in l.lower()), max(0, len(lines)-12))
    print('status', out.returncode); print('\n'.join(l[:400] for l in lines[start:start+14]), flush=True)
shutil.rmtree(work, ignore_errors=True)
