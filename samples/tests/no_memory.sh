#!/usr/bin/env bash
# Refuses the program requests for memory, by a library that stands in front of the C library's: on worked inputs each
# request in turn, alone and with all after it; on a server that can't listen each alone; on one that listens each up to
# its first client, alone and with all after it; then one in a thousand of a server under load. Ends by itself, with
# status 0 exactly where all was as it should be. HUB names the program, where it is not ./hub. Needs cc and python3.
set -euo pipefail
top=$(cd "$(dirname "$0")/../.." && pwd)
. "$top/samples/serve/functions.sh"
needs cc python3
cd "$top"
build_hub
cc -O2 -shared -fPIC -o "$work/no_memory.so" samples/tests/no_memory.c
failed=0
for what in rows start open serve; do
  echo "== $what"
  mkdir "$work/$what"
  samples/tests/no_memory.py "$what" "$hub" "$work/no_memory.so" "$work/$what" || failed=1
done
exit "$failed"
