#!/bin/bash
# keepbc.sh TREE FOLDER: keeps module.bc of TREE's static library in FOLDER
set -e
mkdir -p $2; folder=$(cd $2 && pwd); kit=/opt/rattle; own=on/$(uname -m)
shadow=$(mktemp -d); mkdir -p $shadow/$own/toolchain/bin
for part in $kit/* $kit/$own/* $kit/$own/toolchain/* $kit/$own/toolchain/bin/*; do [ -e "$shadow/${part#$kit/}" ] || ln -s "$part" "$shadow/${part#$kit/}"; done
compiler=$kit/$own/toolchain/bin/clang
rm $shadow/$own/toolchain/bin/clang
printf '#!/bin/sh\ncp module.bc "%s/module.bc"\necho "$@" > "%s/args"\nexec "%s" "$@"\n' $folder $folder $compiler > $shadow/$own/toolchain/bin/clang
chmod +x $shadow/$own/toolchain/bin/clang
cd $1 && RATTLE_HOME=$shadow rt staticlib sirveshan > $folder/log 2>&1
