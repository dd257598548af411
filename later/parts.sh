#!/bin/bash
# parts.sh "title": commits what is in the index in three parts
set -e
cd /work/chain
title=$1
git reset -q
git add -A crates crates.txt && git diff --cached --quiet || git commit -qm "$title"
git add -A bindings compare tools include examples .ci 2>/dev/null || true; git ls-files -m -o -d --exclude-standard | grep -v -E '^(README.md|docs/)' | sort -u | xargs -r -d '\n' git add -A -- || true
git diff --cached --quiet || git commit -qm "$title: calls, tools and runs"
git add -A . && git diff --cached --quiet || git commit -qm "$title: papers"
git log --oneline -3; git status --short | head -3
