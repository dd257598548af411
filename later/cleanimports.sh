# cleanimports.sh BRANCH: takes imported names that nothing names out of BRANCH's files, as a commit of its own (in /work/chain)
cd /work/chain; b=$1; git checkout -q $b
python3 /tmp/help/imports.py . $(git ls-files | grep antt$) > /tmp/help/imp-$b.txt
python3 /tmp/help/rtimports.py . > /tmp/help/rtimp-$b.txt
echo "$b antt $(wc -l < /tmp/help/imp-$b.txt) rt: $(cat /tmp/help/rtimp-$b.txt)"
for f in $(cut -d' ' -f1 /tmp/help/imp-$b.txt | sort -u); do c=$(echo $f | cut -d/ -f2); for e in $(grep -ls "${f#crates/$c/}" crates/$c/must-fail/*.edit); do for n in $(grep "^$f " /tmp/help/imp-$b.txt | cut -d' ' -f2); do grep -qF -- "$n" $e && echo "EDIT $e wants $n"; done; done; done
rt fmt >/dev/null 2>&1; git diff --stat | tail -1
