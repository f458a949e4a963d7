#!/usr/bin/env bash
# Times a built program: bench/run.sh BIN [REPETITIONS]. Inputs, yardsticks and outputs go to bench/out.
# The commands take turns. Of each the least seconds and the most memory of all repetitions are shown, then ratios.
set -euo pipefail
bin=$(realpath "$1")
repetitions=${2:-7}
cd "$(dirname "$0")"

# timed NAME STATUS INPUT OUTPUT COMMAND..: one repetition, as a line of out/NAME.times: seconds by the clock, in the
# program and in the system, and KiB.
timed() {
  local name=$1 wanted=$2 input=$3 output=$4 status=0 TIMEFORMAT='%R %U %S'
  shift 4
  { time /usr/bin/time -q -o out/memory -f %M "$@" <"$input" >"$output" 2>out/notes || status=$?; } 2>out/seconds
  if [ "$status" != "$wanted" ]; then
    echo "$name ended with status $status in place of $wanted: $(cat out/notes)" >&2
    exit 1
  fi
  echo "$(cat out/seconds) $(cat out/memory)" >>"out/$name.times"
}

# least NAME: the least seconds by the clock, the least of the processor, the most MB.
least() {
  sort -n "out/$1.times" | awk '
    NR == 1 { clock = $1; processor = $2 + $3 }
    $2 + $3 < processor { processor = $2 + $3 }
    $4 > memory { memory = $4 }
    END { print clock, processor, memory * 1024 / 1e6 }'
}

shown() {
  printf '%-16s %9.3f %9.3f %9.1f\n' "$1" $(least "$1")
}

ratio() {
  printf '%-32s %9s %9s\n' "$1 / $2" $(echo "$(least "$1") $(least "$2")" | awk '{ printf "%.2f %.2f", $1 / $4, $2 / $5 }')
}

python3 inputs.py out
clang -O3 -o out/lanes64 lanes.c
clang -O3 -DWORDS=1 -o out/lanes1 lanes.c
clang++ -O3 -std=c++17 -o out/schedule schedule.cpp
rm -f out/*.times

for _ in $(seq "$repetitions"); do
  timed run 0 out/vectors.262144 out/run.results "$bin" run out/program.pim
  timed lanes64 0 out/vectors.262144 out/lanes64.results out/lanes64 out/program.pim
  timed lanes1 0 out/vectors.262144 out/lanes1.results out/lanes1 out/program.pim
  cmp out/run.results out/lanes64.results
  cmp out/run.results out/lanes1.results
  timed run-long 0 out/vectors.1000000 out/run.results "$bin" run out/program.pim
  timed lanes64-long 0 out/vectors.1000000 out/lanes64.results out/lanes64 out/program.pim
  cmp out/run.results out/lanes64.results
  timed long 0 /dev/null out/long.results "$bin" run out/long.pim
  cmp out/long.results /dev/null
  timed aiger 6 out/gates.aig /dev/null "$bin" compile --target magic --cells 1
  timed blif 6 out/gates.blif /dev/null "$bin" compile --target magic --cells 1
  timed compile 0 out/gates.aig out/compiled.pim "$bin" compile --target magic --cells 1048576
  timed schedule 0 out/gates.aig out/scheduled.pim out/schedule 1048576
  timed plim 0 out/gates.aig out/plim.pim "$bin" compile --target plim --cells 1048576
  timed compile-small 0 out/gates.100000.aig out/compiled-small.pim "$bin" compile --target magic --cells 1048576
  timed schedule-small 0 out/gates.100000.aig out/scheduled-small.pim out/schedule 1048576
  timed plim-small 0 out/gates.100000.aig out/plim-small.pim "$bin" compile --target plim --cells 1048576
done

# All three programs compute the same.
for size in '' -small; do
  "$bin" run "out/compiled$size.pim" <out/vectors.64 >out/compiled.results
  for other in scheduled plim; do
    "$bin" run "out/$other$size.pim" <out/vectors.64 >out/other.results
    cmp out/compiled.results out/other.results
  done
done

echo "$(nproc) processors, $(sed -n 's/^model name.*: //p' /proc/cpuinfo | head -n 1); $(clang --version | head -n 1); least of $repetitions"
printf '%-16s %9s %9s %9s\n' '' 'clock s' 'cpu s' 'MB'
for name in run lanes64 lanes1 run-long lanes64-long long aiger blif \
  compile schedule plim compile-small schedule-small plim-small; do shown "$name"; done
printf '%-32s %9s %9s\n' '' 'clock' 'cpu'
ratio run lanes64
ratio run lanes1
ratio run-long lanes64-long
ratio compile schedule
ratio compile-small schedule-small
ratio compile compile-small
ratio schedule schedule-small
ratio plim plim-small
