#!/usr/bin/env bash
# Tries samples/operating/judge.sh: on the message of samples/late.script, of which each line is known, and on messages for
# the example's city: good ones, a stale one, malformed ones, and one with a trip that the timetable doesn't have. Ends by
# itself, with status 0 exactly where all was as it should be. HUB names the program, where it is not ./hub. Needs python3.
set -euo pipefail
top=$(cd "$(dirname "$0")/../.." && pwd)
. "$top/samples/serve/functions.sh"
. "$top/samples/tests/front.sh"
needs python3
cd "$top"
build_hub
sed -e "s/^first = .*/first = \"$(date -d yesterday +%Y%m%d)\"/" -e 's/^days = .*/days = 3/' samples/serve/hub.toml > "$work/hub.toml"

# judged STATUS WORD ..: whether judge.sh ends so of the trams' messages; what it says is shown, and in the file `said`.
judged() {
  local wanted=$1 got=0
  shift
  HUB=$hub samples/operating/judge.sh "$work/hub.toml" trams "$@" > "$work/said" 2>&1 || got=$?
  head -n 20 "$work/said" | sed 's/^/        /'
  [ "$got" = "$wanted" ]
}
says() { grep -qP -- "$1" "$work/said"; }
message() { samples/serve/send.py samples/serve/hub.toml message "$@"; }

message late > "$work/late"
sleep 1.1
message late skipped canceled added > "$work/later"
message unmatched > "$work/unmatched"
message alert > "$work/alert"
head -c -1 "$work/late" > "$work/cut"
python3 - "$work" <<'PY'
import sys
sys.path.append("samples/serve")
from wire import number, run
folder = sys.argv[1]
header = run(1, run(1, b"2.0") + number(3, 1795871749))
open(folder + "/latin", "wb").write(header + run(2, run(1, b"a")) + run(2, run(1, b"b") + run(3, run(1, run(1, b"Z\xfcrich")))))
open(folder + "/undated", "wb").write(run(1, run(1, b"2.0")))
PY

echo "== a message of which all is known"
python3 - > "$work/known" <<'PY'
import sys
line, _, rest = open("samples/late.script", "rb").read().partition(b"\n")
sys.stdout.buffer.write(rest[:int(line.split()[2])])
PY
tr '|' '\t' > "$work/wanted" <<'WANTED'
accepted: a whole data set with stamp 1743314000
unmatched: 0
stops that it touches: 3
stop|ST|Market
  - 1743314400|1743314400|-|scheduled|7|Hill|T1|20250330|S1
  - 1743315660|1743315660|-|scheduled|7|Hill|T1|20250330|S2
  + 1743314700|1743314400|300|live|7|Hill|T1|20250330|S1
  + 1743315960|1743315660|300|live|7|Hill|T1|20250330|S2
stop|S3|Harbour
  - 1743315000|1743315000|-|scheduled|7|Hill|T1|20250330|S3
  + 1743315300|1743315000|300|live|7|Hill|T1|20250330|S3
stop|S4|Hill|nothing changes
WANTED
HUB=$hub samples/operating/judge.sh samples/city.toml a "$work/known" > "$work/said" 2>&1 || true
check "it is said line by line" diff "$work/wanted" "$work/said"

echo "== a good message"
check "it is accepted" judged 0 "$work/late"
check "nothing is unmatched" says '^unmatched: 0$'
check "delays come" says '^  \+ \d+\t\d+\t240\tlive\t7\t'
check "in the place of departures by the timetable" says '^  - \d+\t\d+\t-\tscheduled\t7\t'
echo "== one after another"
check "it is accepted" judged 0 "$work/later" "$work/late"
check "a departure that was late is left out now" says '^  \+ \d+\t\d+\t-\tskipped\t7\t'
check "an extra one comes" says '^  \+ \d+\t-\t-\tadded\t7\t\textra\t'
echo "== an alert"
check "it is accepted" judged 0 "$work/alert"
check "with what it says" says '^  \+ trams\tlift\t9\t11\tThe lift at Market'
echo "== a stale message"
check "it is refused" judged 1 "$work/late" "$work/later"
check "and why" says '^refused stale \d+ \d+$'
echo "== malformed messages"
check "one that is cut" judged 1 "$work/cut"
check "and where" says '^refused malformed \d+ cut '
check "one that isn't UTF-8" judged 1 "$work/latin"
check "and where" says '^  entity 2: a text is not UTF-8; in field 1 of TripDescriptor$'
check "one without a stamp" judged 1 "$work/undated"
check "and why" says '^refused stamp 0$'
echo "== a trip that the timetable doesn't have"
check "it is accepted" judged 0 "$work/unmatched"
check "and unmatched" says '^  trip of entity ghost: notrip: '
echo "== what can't be judged"
check "a feed that the configuration hasn't" is "$(HUB=$hub samples/operating/judge.sh "$work/hub.toml" none "$work/late" 2> "$work/said"; echo $?)" 2
sed 's/^/        /' "$work/said"
end_checks
