#!/usr/bin/env bash
# Proves and builds s3gate and swiftd where that is still to be done; starts swiftd, the small store, and s3gate before it, both on
# the loopback interface, with the example key; makes a bucket, puts an object there, lists it and gets it, by the `aws` command
# where it is installed and else by curl; and serves on until it is stopped by Ctrl-C or TERM, when it ends both. While it proves, a line
# tells each crate that is done, and how long the rest may take (examples/build.py); stopped then, it goes on there the next time.
#
#   examples/serve.sh [PORT [FOLDER]]
#
# s3gate listens at PORT, 8080 unless given, and swiftd at the next one; where one of them is taken nothing is started. What is stored
# is kept in FOLDER, `s3gate-data` in the home folder unless given, and is there again when this is started again. The log of s3gate
# stands on standard error.
set -euo pipefail
set -m # each job below is a process group of its own, and is ended as a whole
port="${1:-8080}"
folder="$(realpath -m -- "${2:-${HOME:-/tmp}/s3gate-data}")"
cd "$(dirname "$0")/.."
jobs=()
finish() {
    trap '' TERM INT
    for job in "${jobs[@]}"; do kill -- "-$job" 2>/dev/null || true; done
    wait
}
trap finish EXIT
trap 'exit 143' TERM
trap 'exit 130' INT
is_taken() { (: <"/dev/tcp/127.0.0.1/$1") 2>/dev/null; }

for it in "$port" "$((port + 1))"; do
    if is_taken "$it"; then
        echo "serve.sh: port $it is taken: name another, as in examples/serve.sh 9000" >&2
        exit 1
    fi
done

# It is waited for, so that a signal is heeded at once.
examples/build.py </dev/null &
jobs=($!)
wait $!
jobs=()

place="http://127.0.0.1:$port"
store="127.0.0.1:$((port + 1))"
read -r id secret <examples/keys.txt
# Waits until a port is listened at, by the server that was started for it. swiftd reads its whole file before.
await() {
    while kill -0 "$1" 2>/dev/null; do
        if is_taken "$2"; then return; fi
        sleep 0.1
    done
    echo "serve.sh: what should listen at port $2 has ended" >&2
    exit 1
}
mkdir -p "$folder"
SWIFTD_LISTEN="$store" SWIFTD_LOG=off crates/swiftd/out/swiftd --token example --account example --connections 1000000000 \
    --file "$folder/store.db" &
jobs+=($!)
await $! "$((port + 1))"
S3GATE_KEYS=examples/keys.txt S3GATE_LISTEN="127.0.0.1:$port" S3GATE_STORE="$store" S3GATE_ACCOUNT=example S3GATE_TOKEN=example \
    S3GATE_AHEAD=256 crates/s3gate/out/s3gate serve --connections 1000000000 --extended --largest-body 268435456 &
jobs+=($!)
await $! "$port"
ask() {
    curl --silent --show-error --fail-with-body --retry 5 --retry-connrefused --retry-delay 1 --user "$id:$secret" \
        --aws-sigv4 aws:amz:us-east-1:s3 -H 'x-amz-content-sha256: UNSIGNED-PAYLOAD' "$@"
}
ask --head "$place/photos" >/dev/null 2>&1 || ask -X PUT --data-binary '' "$place/photos"
if command -v aws >/dev/null; then
    export AWS_ACCESS_KEY_ID=$id AWS_SECRET_ACCESS_KEY=$secret AWS_CONFIG_FILE=examples/clients/aws-config
    # An older aws heeds the place by this option alone.
    at() { aws --endpoint-url "$place" s3 "$@"; }
    at cp README.md s3://photos/docs/README.md
    at ls s3://photos --recursive
    at cp s3://photos/docs/README.md - | head -n 1
else
    ask -X PUT --data-binary @README.md -H 'Content-Type: text/markdown' "$place/photos/docs/README.md"
    ask "$place/photos?list-type=2"
    ask "$place/photos/docs/README.md" | head -n 1
fi
cat <<END

s3gate serves at $place, over swiftd at $store. In another shell:

  export AWS_ACCESS_KEY_ID=$id AWS_SECRET_ACCESS_KEY=$secret
  export AWS_CONFIG_FILE=$PWD/examples/clients/aws-config
  aws --endpoint-url $place s3 mb s3://music
  aws --endpoint-url $place s3 cp README.md s3://music/a.txt
  aws --endpoint-url $place s3 ls s3://music

examples/clients has what boto3, rclone and s3cmd want. What is stored is in $folder/store.db and the log beside it, and is there
again when this is started again. Before a real Swift, set S3GATE_STORE, S3GATE_ACCOUNT and S3GATE_TOKEN to its place, an account
of its own and an owner's token (docs/OPERATING.md).
END
wait
