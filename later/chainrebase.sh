# chainrebase.sh FIRST: rebases each branch after FIRST onto the one before it, from the old tips in old-*; conflicts in DIFFERENCES by difres12.py
cd /work/chain; prev=$1; go=0
for b in land12 land13 land14 land15 land16 land17 land17s land18d; do
  if [ $b = $1 ]; then go=1; continue; fi; [ $go = 1 ] || continue
  [ -d .git/rebase-merge ] || git rebase -q -X theirs --onto $prev $(cat /tmp/help/old-$prev) $b >/tmp/help/rb.log 2>&1
  while [ -d .git/rebase-merge ]; do
    u=$(git diff --name-only --diff-filter=U)
    if [ "$u" = docs/DIFFERENCES.md ]; then python3 /tmp/help/difres12.py docs/DIFFERENCES.md; git add docs/DIFFERENCES.md; GIT_EDITOR=true git rebase --continue >/tmp/help/rb.log 2>&1; else echo "CONFLICT $b: $u"; exit 1; fi
  done
  echo ok $b; prev=$b
done
