#!/bin/sh
# Times the program on inputs that grow, and prints a line for each: what it is, the least of five times, or of TIMES, and
# how what it writes ends. Run it by hand, on a machine that does nothing else: bench/run.sh [TIMES [replay | race | evidence]]
count=${1:-5}
only=${2:-}
[ "$count" -gt 0 ] 2>/dev/null || { echo "usage: bench/run.sh [TIMES [replay | race | evidence]]" >&2; exit 64; }
top=$(CDPATH='' cd -- "$(dirname -- "$0")/.." && pwd) || exit 70
program=$top/crates/lockss/out/lockss
input=$(mktemp) || exit 70
trap 'rm -f "$input"' EXIT

# The first call proves and builds the program, where that wasn't done.
"$top/bin/lockss" replay <"$top/examples/agreed.lockss" >/dev/null || exit 70

# measure COMMAND RUN: the command on the input that stands ready.
measure() {
    python3 - "$program" "$input" "$1" "$2" "$count" <<'PYTHON' || exit 1
import subprocess, sys, time

program, input, command, run, count = sys.argv[1:]
times = []
for _ in range(int(count)):
    with open(input, "rb") as source:
        begun = time.perf_counter()
        ended = subprocess.run([program, *command.split()], stdin=source, stdout=subprocess.PIPE, check=True)
        times.append(time.perf_counter() - begun)
print(f"{command} {run:14} {min(times) * 1000:9.1f} ms   {ended.stdout.decode().splitlines()[-1]}")
PYTHON
}

case $only in "" | replay) for run in "mend 16" "mend 32" "mend 64" "small 15" "small 30" "small 60" "small 115" "hash 2" "hash 4" "hash 8" "wide 1" "wide 2" "pair 16383" "pair 16384" "together 8"; do
    # shellcheck disable=SC2086
    python3 "$top/bench/scripts.py" $run >"$input" || exit 70
    measure replay "$run"
done ;; esac

# The same votes by a race and by a replay, and what is before the first of them.
case $only in "" | race) for run in "race 0" "race 1536"; do
    # shellcheck disable=SC2086
    python3 "$top/bench/scripts.py" $run >"$input" || exit 70
    for threads in 1 2 4; do measure "race $threads" "$run"; done
done
python3 "$top/bench/scripts.py" settled 1536 >"$input" || exit 70
measure replay "settled 1536" ;; esac

case $only in "" | evidence) ;; *) exit 0 ;; esac

# The journals of a run, whose plan needs no copies to examine them.
for run in "repairs 100" "repairs 200" "repairs 400" "widest 64"; do
    # shellcheck disable=SC2086
    python3 "$top/bench/scripts.py" $run | "$program" journals | grep -v '^copy ' >"$input" || exit 70
    measure evidence "$run"
done

for run in most-repairs most-polls most-hashing; do
    python3 "$top/bench/journals.py" "$run" >"$input" || exit 70
    measure evidence "$run"
done
