cd /work/chain && git bundle create -q /tmp/help/chain.bundle.new land-blank land-weights land-finer land-nine land-reads --not 98b139a && mv /tmp/help/chain.bundle.new /work/main/later/chain.bundle
