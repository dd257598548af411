#!/bin/bash
# keeps every branch of every work tree as a bundle, and the notes
while :; do
  for d in /work/*/; do
    n=$(basename $d); case $n in main|shared|gate*) continue;; esac
    [ -d $d/.git ] || continue
    ( cd $d && git bundle create -q /tmp/help/$n.bundle.new --branches --not e3a0dd5d 2>/dev/null && mv /tmp/help/$n.bundle.new /work/main/later/$n.bundle
      git diff HEAD > /work/main/later/$n.wip.diff 2>/dev/null )
  done
  cp /tmp/help/*.md /tmp/help/*.py /tmp/help/go /tmp/help/quiet /tmp/help/save.sh /work/main/later/ 2>/dev/null
  sleep 120
done
