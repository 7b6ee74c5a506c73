#!/usr/bin/env bash
# Installs the solvers that bench/run.py compares with, from Debian's packages. Only bench/ uses them.
set -e
apt-get update
DEBIAN_FRONTEND=noninteractive apt-get install -y --no-install-recommends toulbar2 gringo clasp minizinc flatzinc
