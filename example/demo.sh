#!/usr/bin/env bash
# Sets up and builds the program shelf, and has it read the image that ships with it, in which columns 0 and 2 of five are absent. The report is
# all that is printed on standard output; what is done stands on standard error. It takes no argument: the installed command, shelf [FILE], reads any image.
set -euo pipefail
if [ $# -gt 0 ]; then
    echo "demo.sh: it takes no argument, since it shows one image only; the installed command reads others: shelf FILE" >&2
    exit 64
fi
cd "$(dirname "$0")/.."

tools_wanted=build
source install/tools
source install/lock
echo "demo.sh: proves and builds the program first, if that was not done: some minutes" >&2
install/build x86-64 >&2
exec target/install/x86-64/shelf <crates/shelf/stdin
