#!/usr/bin/env bash
# Proves `rota` and `replay` and leaves them as crates/rota/out/rota and crates/replay/out/replay.
set -e
cd "$(dirname "$0")/.."
for program in rota replay; do
  (cd "crates/$program" && rt run < /dev/null > /dev/null)
done
