#!/usr/bin/env bash
# Proves and builds s3gate where that is still to be done, serves the requests of a file, signed for this moment, and shows each
# beside its reply.
#
#   examples/run.sh REQUESTS.http
set -euo pipefail
[ $# -eq 1 ] || { echo "usage: run.sh REQUESTS.http" >&2; exit 1; }
requests="$(realpath "$1")"
cd "$(dirname "$0")/.."
examples/build.py s3gate >&2
replies="$(mktemp)"
trap 'rm -f "$replies"' EXIT
status=0
examples/sign.py "$requests" | S3GATE_KEYS=examples/keys.txt crates/s3gate/out/s3gate session >"$replies" || status=$?
examples/beside.py "$requests" "$replies"
exit "$status"
