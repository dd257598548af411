# onward.sh: goes on with the chain after land12
cd /work/chain
declare -A OLD=([land11]=e4095f38 [land12]=033537c2 [land13]=12bf8945 [land14]=8e877b9 [land15]=7834b36 [land16]=f116529 [land17]=1d1aa6a)
prev=land12
for b in land13 land14 land15 land16 land17; do
  git rebase -q --onto $prev ${OLD[$prev]} $b >/dev/null 2>&1
  while [ -d .git/rebase-merge ] || [ -d .git/rebase-apply ]; do
    u=$(git diff --name-only --diff-filter=U); if [ "$u" = docs/DIFFERENCES.md ]; then python3 /tmp/help/difres.py docs/DIFFERENCES.md; git add docs/DIFFERENCES.md; GIT_EDITOR=true git rebase --continue >/dev/null 2>&1; else echo "CONFLICT $b: $u"; exit 1; fi
  done
  prev=$b
done
git log --oneline -1
