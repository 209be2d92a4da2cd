#!/usr/bin/env bash
# For daily work: proves the crates that changed, over what the last run kept in their folders out/, and runs the worked rows through
# the program's replay. The gate alone (`make test`) is the verdict.
set -eu
cd "$(dirname "$0")/.."
rt all check --jobs "$(python3 -c 'import sys; sys.path.insert(0, "tools"); import prove; print(prove.at_once())')"
(cd crates/segcached && rt run -- --version)
bash tools/tests.sh tools/tests/test_rows.py tools/tests/test_evictions.py
