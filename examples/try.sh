#!/usr/bin/env bash
# A first look, without proofs: compiles s3gate, which takes some minutes, and serves with a store in memory. A bucket is made there, and an
# object put and got, by the `aws` command where it is installed and else by curl. Requests of a file are sent too, signed for this
# moment, and each is shown beside its reply. It serves on until Ctrl-C, an hour at most. What examples/serve.sh and examples/run.sh build
# is proved.
#
#   examples/try.sh [REQUESTS.http [PORT]]
#
# PORT is 8080 unless given. `rt try` hands a program no environment. So it compiles a copy, in which a variable is a file of its name, and
# `serve` has the store in memory of `session`. It leaves nothing behind. `examples/try.sh --texts` says only whether the lines that are
# others in the copy stand in their files.
set -euo pipefail
set -m # each job below is a process group of its own, and is ended as a whole
fail() { echo "try.sh: $*" >&2; exit 1; }
[ $# -le 2 ] || fail "usage: try.sh [REQUESTS.http [PORT]]"
requests=""
[ $# -eq 0 ] || [ "$1" = --texts ] || requests="$(realpath -e -- "$1")"
port="${2:-8080}"
cd "$(dirname "$0")/.."
top="$PWD"
room="$(mktemp -d)"
job=""
finish() {
    trap '' TERM INT
    [ -z "$job" ] || kill -- "-$job" 2>/dev/null || true
    wait
    rm -rf "$room"
}
trap finish EXIT
trap 'exit 143' TERM
trap 'exit 130' INT
is_taken() { (: <"/dev/tcp/127.0.0.1/$port") 2>/dev/null; }

mkdir "$room/.git"
tar --exclude=out -cf - crates.txt HANDLES crates | tar -xf - -C "$room"
python3 - "$room" <<'PYTHON'
import re, sys
def change(path, old, new):
    with open(f"{sys.argv[1]}/crates/{path}", encoding="utf-8") as file:
        text = file.read()
    changed = re.sub(old, lambda _: new, text, count=1, flags=re.DOTALL)
    if changed == text:
        sys.exit(f"try.sh: crates/{path} has other lines, so change those here: {old}")
    with open(f"{sys.argv[1]}/crates/{path}", "w", encoding="utf-8") as file:
        file.write(changed)
change("environment/src/given.rt", r"use std::env::VarError;\n", "")
change("environment/src/given.rt", r"match env::var\(rt, name\) \{.*?\n    \}", """match std::fs::read_to_string(rt, name) {
        Ok(text) => Ok(Some(text)),
        Err(_) => Ok(None),
    }""")
change("s3gate/src/main.rt", r"\bserve\(rt, words, keys\)", "serve_in_memory(rt, words, keys)")
change("s3gate/src/main.rt", r"\nfn serve_on\(", """
fn serve_in_memory(rt: &HostRuntime, words: &[String], keys: &str) -> Result<u8, SetupFault> {
    let mut line = clients(rt, largest_body(rt, words, keys))?.into_line();
    let status = match memory_store(rt.alloc()) {
        Ok(mut store) => run_over(rt, words, keys, &mut line, &mut store),
        Err(_) => Ok(MEMORY),
    };
    let _ = line.finish();
    status
}

fn serve_on(""")
PYTHON
[ "${1:-}" != --texts ] || exit 0

is_taken && fail "port $port is taken: name another, as in examples/try.sh examples/objects.http 9000"
echo "Nothing is proved here: s3gate is compiled without its proofs, which takes two to five minutes, and checked only as it runs."
printf 127.0.0.1:%s "$port" >"$room/listen"
printf keys.txt >"$room/keys"
(
    cd "$room/crates/s3gate"
    exec rt try --seconds 3600 --data S3GATE_LISTEN="$room/listen" --data S3GATE_KEYS="$room/keys" --data keys.txt="$top/examples/keys.txt" \
        -- serve --connections 1000000000 --extended
) </dev/null >"$room/said" 2>&1 &
job=$!
seconds=0
until is_taken; do
    kill -0 "$job" 2>/dev/null || { cat "$room/said" >&2; fail "it doesn't serve"; }
    sleep 1
    seconds=$((seconds + 1))
    [ $((seconds % 30)) -ne 0 ] || echo "$(date +%T) still compiling: $seconds seconds so far"
done

place="http://127.0.0.1:$port"
read -r id secret <examples/keys.txt
# Says a command, and does it.
show() { echo "$ $*"; "$@"; echo; }
export AWS_ACCESS_KEY_ID=$id AWS_SECRET_ACCESS_KEY=$secret AWS_CONFIG_FILE=$PWD/examples/clients/aws-config
echo "It serves at $place."
echo
if command -v aws >/dev/null; then
    show aws --endpoint-url "$place" s3 mb s3://music
    show aws --endpoint-url "$place" s3 cp --no-progress README.md s3://music/docs/README.md
    show aws --endpoint-url "$place" s3 ls s3://music --recursive
    show aws --endpoint-url "$place" s3 cp s3://music/docs/README.md - | sed -n 1,4p
else
    signed=(--silent --show-error --fail-with-body --user "$id:$secret" --aws-sigv4 aws:amz:us-east-1:s3 -H 'x-amz-content-sha256: UNSIGNED-PAYLOAD')
    show curl "${signed[@]}" -X PUT --data-binary '' "$place/music"
    show curl "${signed[@]}" -X PUT --data-binary @README.md "$place/music/docs/README.md"
    show curl "${signed[@]}" "$place/music?list-type=2"
    echo
    show curl "${signed[@]}" "$place/music/docs/README.md" | sed -n 1,4p
fi
if [ -n "$requests" ]; then
    examples/sign.py "$requests" >"$room/requests"
    python3 -c '
import socket, sys
with socket.create_connection(("127.0.0.1", int(sys.argv[1])), 60) as line:
    line.sendall(sys.stdin.buffer.read())
    line.shutdown(socket.SHUT_WR)
    while piece := line.recv(65536):
        sys.stdout.buffer.write(piece)' "$port" <"$room/requests" >"$room/replies"
    examples/beside.py "$requests" "$room/replies"
fi
cat <<END
It serves on until Ctrl-C, an hour at most, and then all is gone. In another shell:

  export AWS_ACCESS_KEY_ID=$id AWS_SECRET_ACCESS_KEY=$secret AWS_CONFIG_FILE=$PWD/examples/clients/aws-config
  aws --endpoint-url $place s3 ls s3://music
END
wait
