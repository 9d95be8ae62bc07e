#!/usr/bin/env bash
# Fetches a token of Keystone and gives it to the nginx before Swift (examples/store-nginx.conf).
#
#   OS_AUTH_URL=https://keystone.example.org:5000/v3 OS_APPLICATION_CREDENTIAL_ID=.. OS_APPLICATION_CREDENTIAL_SECRET=.. \
#       examples/keystone-token.sh /etc/s3gate/token.conf /etc/s3gate/store-nginx.conf
#
# or, with a user's password: OS_USERNAME, OS_PASSWORD, OS_USER_DOMAIN_NAME, OS_PROJECT_NAME, OS_PROJECT_DOMAIN_NAME (the names of
# `openrc`; a domain is Default unless given). Without the second word nothing is reloaded, nor where that nginx doesn't run. Run it before
# nginx first starts, and then by a timer at half of a token's life (`expiration` in keystone.conf, an hour unless set), as the package's
# s3gate-token.timer does. Where it fails it says why, has status 1, and leaves the old token. Neither a secret nor a token is ever a word
# of a command.
set -euo pipefail
fail() { echo "keystone-token: $*" >&2; exit 1; }
# Whether the nginx of this file runs, as far as its `pid` tells.
is_running() {
    local pid
    pid="$(sed -n 's/^ *pid  *\([^;]*\);.*/\1/p' "$1")"
    [ -z "$pid" ] || { [ -s "$pid" ] && kill -0 "$(<"$pid")" 2>/dev/null; }
}
[ $# -eq 1 ] || [ $# -eq 2 ] || fail "usage: keystone-token.sh TOKEN.CONF [NGINX.CONF]"
: "${OS_AUTH_URL:?}"
# A JSON string of one line of text.
text() {
    case "$1" in *[[:cntrl:]]*) fail "a control character in a variable" ;; esac
    local t="${1//\\/\\\\}"
    printf '"%s"' "${t//\"/\\\"}"
}
if [ -n "${OS_APPLICATION_CREDENTIAL_ID:-}" ]; then
    asked="{\"auth\": {\"identity\": {\"methods\": [\"application_credential\"], \"application_credential\": {
        \"id\": $(text "$OS_APPLICATION_CREDENTIAL_ID"), \"secret\": $(text "${OS_APPLICATION_CREDENTIAL_SECRET:?}")}}}}"
else
    asked="{\"auth\": {\"identity\": {\"methods\": [\"password\"], \"password\": {\"user\": {
        \"name\": $(text "${OS_USERNAME:?}"), \"domain\": {\"name\": $(text "${OS_USER_DOMAIN_NAME:-Default}")},
        \"password\": $(text "${OS_PASSWORD:?}")}}},
        \"scope\": {\"project\": {\"name\": $(text "${OS_PROJECT_NAME:?}"), \"domain\": {\"name\": $(text "${OS_PROJECT_DOMAIN_NAME:-Default}")}}}}}"
fi
answer="$(curl --silent --show-error --max-time 60 --output /dev/null --dump-header - -H 'Content-Type: application/json' -H 'Expect:' \
    --data-binary @- "${OS_AUTH_URL%/}/auth/tokens" <<<"$asked")" || fail "no answer of $OS_AUTH_URL"
status="$(sed -n '1s/^[^ ]* \([0-9]*\).*/\1/p' <<<"$answer")"
[ "$status" = 201 ] || fail "$OS_AUTH_URL answers $status"
token="$(tr -d '\r' <<<"$answer" | sed -n 's/^X-Subject-Token: *//Ip')"
[[ "$token" =~ ^[A-Za-z0-9_.=-]{1,1024}$ ]] || fail "X-Subject-Token is missing or has another form"
# Renamed into place whole: a reload never sees half of it.
umask 077
printf 'proxy_set_header X-Auth-Token "%s";\n' "$token" >"$1.new"
mv "$1.new" "$1"
[ $# -eq 1 ] || ! is_running "$2" || nginx -q -c "$2" -s reload
