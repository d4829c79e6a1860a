#!/usr/bin/env bash
# Proves and makes target/lib/libtdma.a, the library for C, and target/bin/schedule, the program. Installs nothing.
set -euo pipefail
cd "$(dirname "$0")"

(cd crates/tdma_c && rt lib)
install -D -m 644 crates/tdma_c/out/libtdma_c.a target/lib/libtdma.a
(cd crates/schedule && rt run -- --help >/dev/null)
install -D -m 755 crates/schedule/out/schedule target/bin/schedule
