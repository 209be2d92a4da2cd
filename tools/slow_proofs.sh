#!/usr/bin/env bash
# Lists what took longest in a crate's last check, which should have run from nothing and by one job:
#     cd crates/NAME && rm -rf out/incremental && rt check --jobs 1
#     tools/slow_proofs.sh NAME [N]     the N slowest of the prover's modules, 20 if no number is given
# The prover keeps each module that it checked in a file; what one took is the time between it and the file before. So the first
# module that needs a library gets the time that the library's loading takes too.
set -eu
# (besides each module its record is kept, in a folder of its own)
find "$(dirname "$0")/../crates/$1/out/incremental" -name '*.oantt' -not -path '*/records/*' -printf '%T@ %f\n' | sort -n |
  awk 'last { printf "%6.1f s  %s\n", $1 - last, $2 } { last = $1 }' | sort -rn | head -n "${2:-20}"
