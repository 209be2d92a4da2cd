#!/usr/bin/env bash
# The gate. `rt ci` proves every crate, and runs the tests and the programs. Then each wrong body must be refused by the
# prover, now or in an earlier run on this machine over the same files, beside the tests that time nothing. Then each growth
# is refused in turn, and real sockets and real clients are tried against a served program, with nothing beside.
# Each crate that is proved gets a line with the time so far. What the gate took is left in out/gate_took, too. What failed is
# named once more at the end. The last line is 'N passed, M failed'.
set -u
cd "$(dirname "$0")/.."
passed=0
failed=0
began=$SECONDS
load=$(cut -d ' ' -f 1-3 /proc/loadavg)
# What the processors did so far, in ticks: all, and what the host gave to other machines.
ticks() { awk '/^cpu /{ for (i = 2; i <= 9; i++) all += $i; print all, $9 }' /proc/stat; }
read -r all_before stolen_before < <(ticks)

work=$(mktemp -d)
tries_pid=
trap '[ -z "$tries_pid" ] || kill -- "-$tries_pid" 2>/dev/null; rm -rf "$work"' EXIT

# Says how far the gate is, after each line that ends a crate's proof or its tests.
with_progress() {
  local crates proved=0 line so_far
  crates=$(grep -cE '^[a-z_0-9]+[^#]*:' crates.txt)
  while IFS= read -r line; do
    printf '%s\n' "$line"
    case $line in
      'rt: '*': its tests are proved') ;;
      'rt: '*' proved') proved=$((proved + 1)) ;;
      *) continue ;;
    esac
    so_far=$(((SECONDS - began) / 60)):$(printf %02d $(((SECONDS - began) % 60)))
    printf 'gate: %s of %s crates proved (%s)\n' "$proved" "$crates" "$so_far"
  done
}

# Adds the count that ends what a part of the gate said. Its third argument is how a line begins that names what failed.
count() {
  if [[ $(tail -n 1 "$2") =~ ^([0-9]+)\ passed,\ ([0-9]+)\ failed$ ]]; then
    passed=$((passed + BASH_REMATCH[1]))
    failed=$((failed + BASH_REMATCH[2]))
    ((BASH_REMATCH[2] == 0)) || grep -E "$3" "$2" >>"$work/failed"
  else
    echo "$1 ended without its count" >>"$work/failed"
    failed=$((failed + 1))
  fi
}

# Runs one further part of the gate, and counts it.
part() {
  local name=$1
  shift
  "$@" 2>&1 | tee "$work/part"
  if [ "${PIPESTATUS[0]}" -eq 0 ]; then
    passed=$((passed + 1))
  else
    { echo "$name failed"; grep -E '^(FAILED|ERROR) ' "$work/part"; } >>"$work/failed"
    failed=$((failed + 1))
  fi
}

mkdir -p out
# rt ci would put these libraries back when it ends, and the wrong bodies are tried over those that it builds.
rm -rf crates/*/out/rlib
# (`time` tells what all of its processes took, in seconds of user and of system)
TIMEFORMAT='%U %S'
{ time rt ci 2>&1; } 2>"$work/took" | tee "$work/log" | with_progress
count rt "$work/log" '^rt: FAILED'
# In a session of its own, which an interrupt ends with its checks.
setsid nice -n 19 python3 tools/wrong_bodies.py >"$work/wrong_bodies" 2>&1 &
tries_pid=$!

program=crates/segcached/out/segcached
# Each file of tests is a part. Those that time nothing run beside the last wrong bodies.
untimed=(closure documents evictions model prove rows scripts sources store_rows waking words
  wrong_bodies)
for name in "${untimed[@]}"; do
  part "tools/tests/test_$name.py" bash tools/tests.sh "tools/tests/test_$name.py"
done
part "try_deb" tools/try_deb.sh "$work/log"

wait "$tries_pid"
tries_pid=
cat "$work/wrong_bodies"
count wrong_bodies "$work/wrong_bodies" '^  [a-z_]+/'
minutes_of_ci=$(awk '{ printf "%.0f", ($1 + $2) / 60 }' "$work/took")
minutes_of_edits=$(sed -n 's/ processor minutes of the prover$//p' "$work/wrong_bodies")
read -r all stolen < <(ticks)
host=$(((stolen - stolen_before) * 100 / (all - all_before + 1)))
costs="processor minutes: $minutes_of_ci of rt ci, $minutes_of_edits of wrong bodies; until then the host took $host% of the time"
costs+=", and load averages before were $load"

for file in tools/tests/test_*.py; do
  name=$(basename "$file" .py)
  [[ " ${untimed[*]} " == *" ${name#test_} "* ]] || part "$file" bash tools/tests.sh "$file"
done
part "hostile" python3 tools/hostile.py --program "$program" --late 2 \
  --only fairness,unread,shared_counters,history,bad_peers,refused_memory,little_memory,fuzz

took="$(((SECONDS - began) / 60)) minutes on $(nproc) processors"
[ ! -e "$work/failed" ] || sed 's/^ */gate: /' "$work/failed"
echo "gate: took $took; $costs"
echo "$(date -u '+%F %H:%M UTC'), make test: $took; $passed passed, $failed failed" >out/gate_took
echo "$passed passed, $failed failed"
[ "$failed" -eq 0 ]
