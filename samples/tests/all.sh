#!/usr/bin/env bash
# Runs each script of samples/tests, samples/serve/run.sh and samples/follow/run.sh, one after another: a line each, and a
# last line with the counts. Status 0 where none failed. What a script printed is shown where it failed. The gate runs
# none of them.
# HUB names the program, where it is not ./hub. Takes about sixteen minutes; what each needs is in docs/OPERATING.md.
#
# usage: all.sh [NAME ..]   the scripts with these names, as nginx or two_hubs; all where there is none
set -euo pipefail
top=$(cd "$(dirname "$0")/../.." && pwd)
. "$top/samples/serve/functions.sh"
cd "$top"
build_hub

[ $# -gt 0 ] || set -- run follow protoc polled agencies clients soak no_memory operating judge audit nginx readers two_hubs broker display moved operators city_of
declare -A counts=([ok]=0 [failed]=0 [untried]=0)
for name; do
  script=samples/tests/$name.sh
  case $name in
    run) script=samples/serve/run.sh ;;
    follow) script=samples/follow/run.sh ;;
  esac
  [ -f "$script" ] || fail "there is no $script"
  began=$SECONDS status=0
  "$script" > "$work/said" 2>&1 < /dev/null || status=$?
  took=$((SECONDS - began))
  case $status in
    0) word=ok ;;
    77) word=untried ;;
    *) word=failed ;;
  esac
  counts[$word]=$((counts[$word] + 1))
  case $word in
    ok) echo "ok         $script, $took s" ;;
    untried) echo "not tried  $script: $(sed -n 's/^not tried: //p' "$work/said" | head -n 1)" ;;
    failed)
      echo "FAILED     $script, $took s, status $status; it printed"
      sed 's/^/    /' "$work/said"
      ;;
  esac
done
echo "${counts[ok]} ok, ${counts[failed]} failed, ${counts[untried]} not tried"
[ "${counts[failed]}" = 0 ]
