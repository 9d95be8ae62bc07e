#!/usr/bin/env bash
# Says whether s3gate answers, and its Swift too. It signs nothing: it asks for a bucket that isn't there, which is one call of Swift
# (and two more where it is the first that a new s3gate is asked).
#
#   examples/health.sh [http://127.0.0.1:8080]
#
# 404 is well (so is 200 or 403, where somebody made a bucket of this name). 503: Swift fails, or the token ended. 500: the account
# has what s3gate never put there (docs/OPERATING.md). 000: s3gate doesn't answer. In HAProxy: `option httpchk HEAD /s3gate-health`,
# `http-check expect status 404`, and `timeout check 330s`, since one request is served at a time.
status="$(curl --silent --head --max-time 10 --output /dev/null --write-out '%{http_code}' "${1:-http://127.0.0.1:8080}/s3gate-health")"
echo "$status"
case "$status" in 200 | 403 | 404) exit 0 ;; *) exit 1 ;; esac
