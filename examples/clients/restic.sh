#!/usr/bin/env bash
# restic on s3gate, behind a front that ends TLS (examples/nginx.conf). Over plain HTTP it signs each chunk of a body, which s3gate
# answers 501.
#
#   export AWS_ACCESS_KEY_ID=.. AWS_SECRET_ACCESS_KEY=.. RESTIC_PASSWORD=..
#   export RESTIC_REPOSITORY=s3:https://s3.example.org/backup
#   examples/clients/restic.sh init
#   examples/clients/restic.sh backup /home
#   examples/clients/restic.sh check
#   examples/clients/restic.sh restore latest --target /tmp/restored
#
# --pack-size 4: a pack may pass its size by one blob of up to 8 MiB, so it has at most 12 MiB. With restic's own 16 the packs pass
# the 16 MiB that one body may have. Each version since 0.14 has the option. With a certificate of your own: --cacert FILE.
set -euo pipefail
exec restic --pack-size 4 -o s3.bucket-lookup=path "$@"
