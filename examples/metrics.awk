# s3gate's log as figures for Prometheus, by the textfile collector of node_exporter. Each minute, as one line of a script:
#
#   journalctl -u s3gate -o cat --since today | awk -v health="$(examples/health.sh)" -f examples/metrics.awk > FILE.new && mv FILE.new FILE
#
# with FILE /var/lib/prometheus/node-exporter/s3gate.prom, as Debian's package reads it. The counts are of the day and begin anew at
# midnight, as counters may. examples/alarms.yml has four alarms over them. `health` is what health.sh says; without it there are no
# figures of it.
#
# What anybody may send names no series: methods beside S3's are one, and a key is counted where the request was answered below 400, so
# that its signature held.
BEGIN {
    # The fields of a reply's line, as docs/OPERATING.md has them.
    fields = split("time,connection,method,target,status,request id,bytes,calls,milliseconds,client,key,waited", name, ",")
    for (i = 1; i <= fields; i++) at[name[i]] = i
    METHOD = at["method"]; TARGET = at["target"]; STATUS = at["status"]; BYTES = at["bytes"]
    CALLS = at["calls"]; BUSY = at["milliseconds"]; KEY = at["key"]
    count = split("GET HEAD PUT POST DELETE", name, " ")
    for (i = 1; i <= count; i++) known[name[i]] = 1
}
# A reply.
NF == fields && $STATUS ~ /^[0-9][0-9][0-9]$/ && $2 ~ /^[0-9]+$/ && $TARGET ~ /^[\/-]/ {
    replies[$METHOD " " $STATUS]++
    bytes += $BYTES
    calls += $CALLS
    busy += $BUSY
    if ($BUSY > 1000) slow++
    if ($STATUS < 400) keys[$KEY]++
    next
}
# What was behind a 501 or an InconsistentStore.
$2 ~ /^[0-9]+$/ && $3 == "not" && $4 == "implemented:" { unknown++; next }
$2 ~ /^[0-9]+$/ && $3 == "inconsistent:" { inconsistent++; next }
# The store; at a start it may be that it says nothing of itself, and serves.
$2 == "store" && !/: no \/info: / { changes++; up = /: well again$/ ? 1 : 0; is_told = 1; next }
# A start.
$2 == "s3gate" && $4 == "listens" { starts++; up = is_told = 1; version = $3; sub(/:$/, "", version) }

function told(name, kind, help) { printf "# HELP %s %s\n# TYPE %s %s\n", name, help, name, kind }
function one(name, kind, help, value) { told(name, kind, help); printf "%s %s\n", name, value }

END {
    told("s3gate_replies_total", "counter", "Replies, by method and status.")
    for (it in replies) { split(it, word, " "); series[(word[1] in known ? word[1] : "other") "\",status=\"" word[2]] += replies[it] }
    for (it in series) printf "s3gate_replies_total{method=\"%s\"} %d\n", it, series[it]
    told("s3gate_replies_by_key_total", "counter", "Replies below 400, by the id of the key; - of who has none.")
    for (it in keys) printf "s3gate_replies_by_key_total{key=\"%s\"} %d\n", it, keys[it]
    one("s3gate_reply_bytes_total", "counter", "Bytes of all replies, with their heads.", sprintf("%.0f", bytes))
    one("s3gate_store_calls_total", "counter", "Calls of the store.", sprintf("%.0f", calls))
    one("s3gate_busy_seconds_total", "counter", "Seconds in which a request was served; one at a time is.", sprintf("%.3f", busy / 1000))
    one("s3gate_slow_replies_total", "counter", "Replies that took more than a second.", slow + 0)
    one("s3gate_not_implemented_total", "counter", "Replies of 501.", unknown + 0)
    one("s3gate_inconsistent_total", "counter", "Replies of InconsistentStore.", inconsistent + 0)
    one("s3gate_store_changes_total", "counter", "How often the store failed in another way, or was well again.", changes + 0)
    if (is_told) one("s3gate_store_up", "gauge", "Whether the last thing said of the store is that it is well.", up)
    one("s3gate_starts_total", "counter", "Starts of the service.", starts + 0)
    if (version != "") { told("s3gate_info", "gauge", "The version of the last start."); printf "s3gate_info{version=\"%s\"} 1\n", version }
    if (health != "") {
        one("s3gate_health_status", "gauge", "The status that health.sh saw; 0 where there was no answer.", health + 0)
        one("s3gate_well", "gauge", "Whether s3gate and its store answer.", health ~ /^(200|403|404)$/ ? 1 : 0)
    }
}
