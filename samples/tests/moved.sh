#!/usr/bin/env bash
# Tries the display of a departure that an update moves to another platform, in Chromium without a window: at the
# station, at the new platform and at the old one. What the page asks is answered by the program out of
# samples/moved.script, at the moment of its boards. With a folder it leaves a picture there, made small by pngquant
# where that is installed. Ends by itself, with status 0 exactly where all was as it should be. HUB names the program,
# where it is not ./hub. Needs python3 and chromium.
#
# usage: moved.sh [FOLDER]
set -euo pipefail
top=$(cd "$(dirname "$0")/../.." && pwd)
. "$top/samples/serve/functions.sh"
needs python3 chromium
cd "$top"
build_hub
python3 samples/tests/moved.py "$hub" "${1:-$work}" >&1
