# shellcheck shell=bash
# Sourced first by the scripts next to it: goes to the top of the repository, makes a folder `work` that is removed when
# the script ends, and sets `hub` to the program: HUB, where that is set, else the one that ./hub builds. ./hub is asked to
# bring it up to date first. From nothing it proves every function, which can take an hour, and says on standard error how
# far it is.
top=$(cd "$(dirname "${BASH_SOURCE[0]}")/.." && pwd)
hub=$top/out/hub
[ -z "${HUB:-}" ] || hub=$(realpath "$HUB")
work=$(mktemp -d)
trap 'rm -rf "$work"' EXIT
cd "$top" || exit 1
[ -n "${HUB:-}" ] || ./hub > "$work/usage" < /dev/null || true # without words it prints its usage, once it is built
if [ ! -x "$hub" ]; then
  echo "${0##*/}: there is no program $hub" >&2
  exit 1
fi
