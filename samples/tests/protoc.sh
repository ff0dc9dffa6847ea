#!/usr/bin/env bash
# Tries the hub against protoc: a message that protoc makes of a text, with every field that the hub knows, is accepted,
# and protoc reads the combined feed back as that text with the hub's header and ids. Ends by itself, with status 0
# exactly where all was as it should be. HUB names the program, where it is not ./hub. Needs python3 and protoc.
set -euo pipefail
top=$(cd "$(dirname "$0")/../.." && pwd)
. "$top/samples/serve/functions.sh"
needs python3 protoc
cd "$top"
build_hub

# message encode, message decode: between a text and a message, from standard input to standard output.
message() { protoc --proto_path=samples/serve "--$1=transit_realtime.FeedMessage" gtfs_realtime.proto; }

message encode < samples/tests/every_field.txt > "$work/message"
{
  printf 'F a\nM a %d\n' "$(wc -c < "$work/message")"
  cat "$work/message"
  printf '\nO plain\nE\n'
} > "$work/script"
"$hub" replay < "$work/script" > "$work/answer"
python3 - "$work/answer" "$work/feed" <<'PY'
import sys
answer = open(sys.argv[1], "rb").read()
accepted, line, rest = answer.split(b"\n", 2)
if accepted != b"accepted 1" or not line.startswith(b"feed "):
    sys.exit(f"protoc.sh: the hub answered {accepted!r} and {line!r}")
length = int(line[5:])
if rest[length:] != b"\n":
    sys.exit("protoc.sh: the feed is not as long as the hub says")
open(sys.argv[2], "wb").write(rest[:length])
PY
# In the combined feed each id is under its feed's name, and the header says that it is a whole data set.
message decode < "$work/message" | sed 's/^  id: "/  id: "a:/; s/incrementality: DIFFERENTIAL/incrementality: FULL_DATASET/' > "$work/wanted"
message decode < "$work/feed" > "$work/read"
diff "$work/wanted" "$work/read"
echo "ok      the hub accepts protoc's message"
echo "ok      protoc reads the combined feed"
