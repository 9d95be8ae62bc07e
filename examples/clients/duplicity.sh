#!/usr/bin/env bash
# duplicity on s3gate, by its boto3 backend. The bucket is made before, by any other client.
#
#   export AWS_ACCESS_KEY_ID=.. AWS_SECRET_ACCESS_KEY=.. PASSPHRASE=..
#   examples/clients/duplicity.sh full /home boto3+s3://backup/home
#   examples/clients/duplicity.sh verify boto3+s3://backup/home /home
#   examples/clients/duplicity.sh restore boto3+s3://backup/home /tmp/restored
#
# --s3-multipart-chunk-size 16: duplicity's own parts have 25 MiB, and s3gate takes up to 16 MiB each. Volumes of 200 MB, as duplicity
# makes them by itself, go in 12 parts.
# S3GATE_ENDPOINT is s3gate's place, or a front's. With botocore from 1.36 on and TLS: export
# AWS_REQUEST_CHECKSUM_CALCULATION=when_required AWS_RESPONSE_CHECKSUM_VALIDATION=when_required.
set -euo pipefail
action="$1"
shift
exec duplicity "$action" --s3-multipart-chunk-size 16 --s3-endpoint-url "${S3GATE_ENDPOINT:-http://127.0.0.1:8080}" --s3-region-name us-east-1 "$@"
