# takes the replayed commit's own text for the files named; goes on
cd /work/chain
for i in $(seq 1 40); do
  u=$(git diff --name-only --diff-filter=U)
  if [ -z "$u" ]; then
     if [ -d .git/rebase-merge ]; then GIT_EDITOR=true git rebase --continue >/tmp/help/cont.log 2>&1 || { [ -z "$(git diff --name-only --diff-filter=U)" ] && { tail -3 /tmp/help/cont.log; exit 1; }; }; continue; fi
     echo done; exit 0
  fi
  for f in $u; do
    case " $TAKE " in *" $f "*) git checkout -q --theirs -- "$f" && git add "$f";; *) echo "conflict $f at $(git log -1 --format=%s REBASE_HEAD)"; exit 1;; esac
  done
done
