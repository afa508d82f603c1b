# shellcheck shell=sh
# Sourced by the commands at the top of the repository: ends with one sentence if Python or, unless NEEDS_RT is "no", the kit is missing.

command=$(basename "$0")
ends() { echo "$command: $*" >&2; exit 2; }

command -v python3 > /dev/null || ends "Python 3.9 or later is missing; on Debian and Ubuntu: apt-get install python3"
python3 -c 'import sys; sys.exit(sys.version_info < (3, 9))' || ends "Python 3.9 or later is needed, and python3 is $(python3 --version 2>&1)"
[ "${NEEDS_RT:-yes}" = no ] || command -v rt > /dev/null || ends "rt not found; put the bin folder of the Rattle kit on PATH: export PATH=\"/path/to/the/kit/bin:\$PATH\""
