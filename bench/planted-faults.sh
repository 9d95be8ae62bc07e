#!/usr/bin/env bash
# Whether the cases see what they are there to see: plants one fault after another in a copy of the crates, runs the program
# `cases` on it without a proof, and says whether it printed something else than its `stdout` has for these files. A fault in what
# `cases` doesn't use is looked for by the tests of `outside_tests`: whether one of them fails.
#
#   bench/planted-faults.sh [WORD]     only the faults whose name has the word; some two minutes of processor a fault
#   bench/planted-faults.sh --texts    only whether the text of each fault stands in its file, which takes no time
#
# The status is 1 where a fault went unseen, or its text isn't there.
set -euo pipefail
cd "$(dirname "$0")/.."
exec python3 - "$@" <<'PYTHON'
import os, shutil, subprocess, sys, tempfile

# In place of the files of cases.
OUTSIDE = "outside_tests"

# A name, the file below crates/, which occurrence of the old text, the old text, the new one; and the files of cases that are
# run, where it takes others, or that the tests of sockets and the log are.
FAULTS = [
    ("wire_log next: no connection is begun", "wire_log/src/logged_line.rt", 1, "let result = self.line.next();", "let result: Result<bool, Failed> = Ok(false);", OUTSIDE),
    ("wire_log read: less is told than was read", "wire_log/src/logged_line.rt", 1, "                Ok(count)\n", "                Ok(count / 2)\n", OUTSIDE),
    ("wire_log write: nothing is sent", "wire_log/src/logged_line.rt", 1, "let result = self.line.write(store, bytes);", "let result = self.line.write(store, b\"\");", OUTSIDE),
    ("wire_log call: it fails unasked", "wire_log/src/logged_store.rt", 1, "let result = self.store.call(request);", "let result: Result<SwiftReply, SwiftFault> = Err(SwiftFault::Failed);", OUTSIDE),
    ("gate_base write: bytes are sent, and the write failed", "gate_base/src/line_memory.rt", 1, "Ok(()) => Ok(()),", "Ok(()) => Err(Failed),"),
    ("gate_base draw: the last one again", "gate_base/src/told_memory.rt", 1, "None => draw.wrapping_add(1),", "None => draw,"),
    ("gate_base begin: a connection is skipped", "gate_base/src/wire_memory.rt", 1, "match self.waiting.next() {", "match self.waiting.next().and(self.waiting.next()) {"),
    ("gate_base take: a read gives half", "gate_base/src/wire_memory.rt", 1, "let count = most.min(buf.len().min(rest.len()));", "let count = most.min(buf.len().min(rest.len())) / 2;"),
    ("planned_swift account_at: one call early", "planned_swift/src/replay.rt", 1, "for entry in &self.log[..k as usize] {", "for entry in &self.log[..(k as usize).saturating_sub(1)] {", ["sweeps.txt"]),
    ("planned_swift make_call_unanswered: a lost reply leaves the account", "planned_swift/src/replay.rt", 1, "Outcome::LostBefore => Ok(()),", "Outcome::LostBefore | Outcome::LostAfter => Ok(()),"),
    ("account_calls reply_of: a failed call is a refusal", "account_calls/src/plans.rt", 1, "Err(PlanFault::Failed) => Reply::Refused(Code::ServiceUnavailable)", "Err(PlanFault::Failed) => Reply::Refused(Code::AccessDenied)"),
    ("planner found_object_within: another code for a missing key", "planner/src/reading.rt", 1, "Code::NoSuchKey", "Code::NoSuchBucket"),
    ("planner delete_object: a call repeated", "planner/src/objects.rt", 1, "    plan_delete_object_within(state, deletion)\n", "    let _ = head_bucket(state, &deletion.bucket)?;\n    plan_delete_object_within(state, deletion)\n"),
    ("account_calls put_request: metadata dropped", "account_calls/src/object.rt", 1, "pack(alloc, &content.meta)?", "pack(alloc, &s3_names::Meta::new(alloc))?"),
    ("account_calls tag_of_put_object: another moment", "account_calls/src/object.rt", 1, "        moment,\n        id: None,", "        moment: moment / 2,\n        id: None,"),
    ("account_calls put_bucket_container: the bucket has no moment", "account_calls/src/bucket.rt", 1, "created: Some(label.moment)", "created: None"),
    ("recovery settle_unsure_store: the gateway's own container is made twice", "recovery/src/settling.rt", 1, "    make_gateway(alloc, store)?;\n", "    make_gateway(alloc, store)?;\n    make_gateway(alloc, store)?;\n", ["uploads.txt"]),
    ("account_calls interpret_sealed_get: what is sealed is passed over", "account_calls/src/sealed.rt", 1, "        SwiftReply::Bytes { head, body } if !head.manifest => sealed_in_text(\n            alloc,\n            body.as_slice(),\n        ),\n", "        SwiftReply::Bytes { head, .. } if !head.manifest => Ok(None),\n", ["settling.txt"]),
    ("account_calls add_sealed_listing_segment: an empty part is listed too", "account_calls/src/sealed.rt", 1, "    if part.size == 0 {\n        return Ok(());\n    }\n", "", ["settling.txt"]),
    ("recovery rolled_forward_record_text: the moment of the start", "recovery/src/sealed.rt", 1, "moment: Some(sealed.moment),", "moment: Some(sealed.started),", ["settling.txt"]),
    ("recovery finish_roll_forward: what is sealed goes before the record", "recovery/src/settling.rt", 1, "    put_rolled_forward_record(alloc, store, sealed)?;\n    delete_rolled_forward_seal(alloc, store)\n", "    delete_rolled_forward_seal(alloc, store)?;\n    put_rolled_forward_record(alloc, store, sealed)\n", ["settling.txt"]),
    ("account_calls delete_names: the first file of a page stays", "account_calls/src/beside.rt", 1, "    for item in items {\n        delete_name(", "    for item in items.iter().skip(1) {\n        delete_name(", ["uploads.txt"]),
    ("upload_calls free_id: the id behind the draw", "upload_calls/src/ids.rt", 1, "draw.wrapping_add(u128::from(tries))", "draw.wrapping_add(u128::from(tries) + 1)", ["uploads.txt"]),
    ("upload_calls is_taken: segments don't count", "upload_calls/src/ids.rt", 1, "    is_taken_by_segment(state, bucket, id)\n", "    let _ = is_taken_by_segment(state, bucket, id)?;\n    Ok(false)\n", ["uploads.txt"]),
    ("plan_uploads end_abort_upload_plan: a call that failed behind the commit is told", "plan_uploads/src/abort.rt", 1, "Ok(()) | Err(PlanFault::Failed) => Ok(Reply::Gone),", "Ok(()) => Ok(Reply::Gone),", ["uploads.txt"]),
    ("plan_uploads done_upload_to_complete: the same completion again finds no upload", "plan_uploads/src/completed.rt", 1, "    ToComplete::Again(etag)\n", "    ToComplete::NoUpload\n", ["completions.txt"]),
    ("plan_uploads completion_of_chosen_parts: the ETag of all listed parts but the first", "plan_uploads/src/complete.rt", 1, "upload_etag(alloc, done.list.get().as_slice())?", "upload_etag(alloc, &done.list.get().as_slice()[1..])?", ["completions.txt"]),
    ("plan_uploads end_complete_upload_sealed: a call that failed behind the commit is told", "plan_uploads/src/seal.rt", 1, "        Err(fault) => Completing {\n            end: Ok(reply),", "        Err(fault) => Completing {\n            end: Err(fault),", ["completions.txt"]),
    ("plan_uploads end_complete_upload_sealed: what is sealed still is forgotten", "plan_uploads/src/seal.rt", 1, "            end: Ok(reply),\n            unfinished: Some(fault),", "            end: Ok(reply),\n            unfinished: None,", ["completions.txt"]),
    ("plan_uploads seal_and_finish: nothing behind the seal, as if memory had run out", "plan_uploads/src/seal.rt", 1, "end_complete_upload_sealed(roll_forward_held(state, sealed), reply),", "end_complete_upload_sealed(Err(PlanFault::Memory), reply),", ["completions.txt"]),
    ("recovery roll_forward: the record before the object", "recovery/src/settling.rt", 1, "    put_rolled_forward_object(alloc, store, sealed)?;\n    finish_roll_forward(alloc, store, sealed)\n", "    put_rolled_forward_record(alloc, store, sealed)?;\n    put_rolled_forward_object(alloc, store, sealed)?;\n    delete_rolled_forward_seal(alloc, store)\n", ["completions.txt"]),
    ("upload_calls list_parts: the part of the marker too", "upload_calls/src/listed_parts.rt", 1, "segment_name(alloc, id, marker)?", "segment_name(alloc, id, marker.saturating_sub(1))?", ["uploads.txt"]),
    ("planner delete_keys: the first key stays", "planner/src/deletions.rt", 1, "    for key in keys {\n", "    for key in keys.iter().skip(1) {\n", ["many_keys.txt"]),
    ("planner delete_keys: the keys behind a failed call are tried", "planner/src/deletions.rt", 1, "        delete_key(state, bucket, key)?;\n", "        let _ = delete_key(state, bucket, key);\n", ["many_keys.txt"]),
    ("planner delete_key: a key of 1024 bytes is reported untried", "planner/src/deletions.rt", 1, "    delete_object(state, ObjectName { bucket, key })\n", "    if key.bytes().len() == 1024 {\n        return Ok(());\n    }\n    delete_object(state, ObjectName { bucket, key })\n", ["many_keys.txt"]),
    ("many_keys content_of: the source's type and metadata, where they are replaced", "many_keys/src/source.rt", 1, "        Some(replaced) => replaced.into_value(),\n", "        Some(_) => Described { content_type, meta },\n", ["copies.txt"]),
    ("many_keys copy_source_by_pieces: the id isn't looked for", "many_keys/src/listed.rt", 1, "    let id = free_id(state, &copy.to.bucket, copy.to.label.draw)?;\n", "    let id = copy.to.label.draw;\n", ["copies.txt"]),
    ("many_keys get_piece_to_copy: each segment has the bytes of the first", "many_keys/src/segments.rt", 1, "segment_name(alloc, id, piece.number)?;", "segment_name(alloc, id, 1)?;", ["copies.txt"]),
    ("many_keys copy_piece: the segments have the number of the first", "many_keys/src/segments.rt", 1, "PartNumber::of(piece.number)", "PartNumber::of(1)", ["copies.txt"]),
    ("s3_machine has_last: one byte behind the end", "s3_machine/src/copy_sources.rt", 1, "            last < size\n", "            last <= size\n", ["copies.txt"]),
    ("s3_machine gives_bytes: what a client has as it is may be copied", "s3_machine/src/copy_sources.rt", 1, "        Judged::Bytes { .. } => true,\n        Judged::PreconditionFailed | Judged::NotModified | Judged::InvalidRange => false,\n", "        Judged::Bytes { .. } | Judged::NotModified => true,\n        Judged::PreconditionFailed | Judged::InvalidRange => false,\n", ["copies-extended.txt"]),
    ("many_keys copy_under_conditions: that it is onto itself comes first", "many_keys/src/copies.rt", 1, "    if !may_be_copied(conditions, &head) {\n", "    if is_onto_itself(&copy.to.bucket, &copy.to.key, &copy.from_bucket, &copy.from_key, &copy.to.replaced) {\n        return Ok(Reply::Refused(Code::InvalidRequest));\n    }\n    if !may_be_copied(conditions, &head) {\n", ["copies-extended.txt"]),
    ("s3_requests is_extended_pair: a delimiter of any text", "s3_requests/src/query.rt", 1, " && pair.value.len() == 0)", ")", ["gateway.txt"]),
    ("s3_pages upload: a key as it is", "s3_pages/src/uploads.rt", 1, "self.shown(b\"Key\", url, item.key.as_slice())?;", "self.shown(b\"Key\", false, item.key.as_slice())?;", ["s3_bodies.txt"]),
    ("chunked has_chunk_signature: the signature of a chunk isn't looked at", "chunked/src/sign.rt", 1, "    Ok(are_same_signatures(chunk.signature, &due))\n", "    Ok(due.len() == 64)\n", ["chunked.txt"]),
    ("chunked chunked_trailers: the previous signature is always the head's", "chunked/src/trailers.rt", 1, "        previous = chunk.signature;\n", "", ["chunked.txt"]),
    ("chunked decode: the decoded length isn't compared", "chunked/src/body.rt", 1, "    if body.len() as u64 != count {", "    if count == u64::MAX {", ["chunked.txt"]),
    ("extended claims_of: the checksums of trailers are dropped", "extended/src/claims.rt", 1, "    append_checksums(&mut checksums, trailers)?;\n", "", ["chunked.txt"]),
    ("extended objection_to_others: chunks of any request", "extended/src/objection.rt", 1, "        Some(Proper::of(Code::NotImplemented))\n    } else {\n        None\n", "        None\n    } else {\n        None\n", ["chunked.txt"]),
    ("http_wire closes: HTTP/1.0 stays open", "http_wire/src/closing.rt", 1, "message.old || close_header", "close_header", ["http_wire.txt", "buckets.txt"]),
    ("http_wire take_offered: the interim line after the body", "http_wire/src/take.rt", 1, "    offer(message, size, line, store)?;\n    take_request_body(pending, body, start, size, line)\n", "    let taken = take_request_body(pending, body, start, size, line)?;\n    offer(message, size, line, store)?;\n    Ok(taken)\n", ["interim.txt"]),
    ("gateway answer: a reply before the call", "gateway/src/serve.rt", 1, "    match handle_request(alloc, service, lent, received) {", "    if lent.line.write(&*lent.store, b\"HTTP/1.1 200 OK\\r\\n\").is_err() {\n        return Some(Ended::LineFailed);\n    }\n    match handle_request(alloc, service, lent, received) {"),
    ("gateway send_piece: it writes before it gets", "gateway/src/send.rt", 1, "    match read_piece(state, found, at, size) {\n", "    if line.write(state.store(), b\"\".as_slice()).is_err() {\n        return Some(Stop::Line);\n    }\n    match read_piece(state, found, at, size) {\n", ["ranges.txt"]),
    ("gateway piece_size: twice as large", "gateway/src/send.rt", 1, "const MOST_PIECE: u64 = 1_048_576;", "const MOST_PIECE: u64 = 2_097_152;", ["reads.txt"]),
    ("gateway send_behind_head: a connection goes on behind a read that broke off", "gateway/src/send.rt", 1, "            drop(end);\n            Handled::Parted(ended_by(found, fault))\n", "            drop(ended_by(found, fault));\n            Handled::Served(end)\n", ["faults.txt"]),
    ("swift_store is_taken_on_shelf: a fresh object is put over another", "swift_store/src/replies.rt", 1, "        Ok(head.is_some())\n", "        Ok(head.is_some() && false)\n", ["store_cmd.txt"]),
    ("swift_requests append_newest_field: no replica is asked", "swift_requests/src/call_writer.rt", 1, "    if newest {\n", "    if newest && false {\n", ["swift_wire.txt"]),
    ("swift_requests fresh_by: any value is taken", "swift_requests/src/call_reader.rt", 1, "    if value == b\"*\".as_slice() {\n", "    if value != b\"\".as_slice() {\n", ["swift_wire.txt"]),
    ("planned_swift is_taken_in_account: any object is taken", "planned_swift/src/serve.rt", 1, "    put.fresh\n        && object_in_account(", "    !put.fresh\n        && object_in_account(", ["swift_calls.txt"]),
    ("swift_store serve: no token is looked at", "swift_store/src/store.rt", 1, "if !has_account_token(place, &message) {", "if false {", ["store_cmd.txt"]),
    ("gateway next_label: the id is the second draw", "gateway/src/label.rt", 1, "    let request_id = draws.draw();\n    let draw = draws.draw();", "    let draw = draws.draw();\n    let request_id = draws.draw();"),
    ("gateway print_reply: HEAD has a body", "gateway/src/write.rt", 1, "print_page(alloc, &page, context.method, closing)", "print_page(alloc, &page, b\"GET\", closing)"),
    ("s3_pages made_bucket_reply_page: another Location", "s3_pages/src/pages.rt", 1, "Bytes::from_slice(alloc, b\"/\")?", "Bytes::from_slice(alloc, b\"\")?"),
    ("s3_pages add_object_page_headers: Accept-Ranges dropped", "s3_pages/src/object.rt", 1, "    add_header(alloc, headers, b\"Accept-Ranges\", b\"bytes\")?;\n", ""),
    ("s3_pages common: another order of headers", "s3_pages/src/pages.rt", 1, "    add_header(alloc, &mut headers, b\"Date\", &date)?;\n    add_header(alloc, &mut headers, b\"x-amz-request-id\", &id)?;", "    add_header(alloc, &mut headers, b\"x-amz-request-id\", &id)?;\n    add_header(alloc, &mut headers, b\"Date\", &date)?;"),
    ("s3_pages quoted: an ETag without its quotes", "s3_pages/src/texts.rt", 1, "Bytes::from_slice(alloc, b\"\\\"\")?", "Bytes::from_slice(alloc, b\"\")?"),
    ("presign is_expiry_span: a week and a second", "presign/src/number.rt", 1, "1 <= seconds && seconds <= LONGEST", "1 <= seconds && seconds <= LONGEST + 1", ["presigned.txt"]),
    ("presign is_presigned: by the algorithm alone", "presign/src/parameters.rt", 1, "has_presigned_parameter(query, ALGORITHM) || has_presigned_parameter(query, SIGNATURE)", "has_presigned_parameter(query, ALGORITHM)", ["presigned.txt", "presigned-runs.txt"]),
    ("presign expected_query_signature: the signature stays in the query", "presign/src/verdict.rt", 1, "target.query.without(alloc, SIGNATURE)?", "target.query.without(alloc, b\"X-Amz-Algorithm\".as_slice())?", ["presigned.txt"]),
    ("presign is_left_out: the host alone must be signed", "presign/src/verdict.rt", 1, "must_be_signed(name) && name", "must_be_signed(name) && name.len() == 4 && name", ["presigned.txt"]),
    ("presign is_out_of_time: the expiry isn't looked at", "presign/src/verdict.rt", 1, "seconds.saturating_sub(moment) > EARLY || moment.saturating_sub(seconds) > claim.expires", "seconds.saturating_sub(moment) > EARLY", ["presigned.txt"]),
    ("presign judge_query_by_secret: a HEAD by any signature", "presign/src/verdict.rt", 1, "if signature_differs(alloc, &claim.by, &due)? {", "if signature_differs(alloc, &claim.by, &due)? && request.message.method.as_slice() != b\"HEAD\".as_slice() {", ["presigned.txt"]),
    ("presign_cmd presign_message: it holds for a second", "presign_cmd/src/message.rt", 1, "        Some(target) => Ok(Some(presign(alloc, signer, message, &target)?)),\n", "        Some(target) => {\n            let short = UrlSigner {\n                secret: signer.secret,\n                id: signer.id,\n                region: signer.region,\n                moment: signer.moment,\n                expires: signer.expires.min(1),\n            };\n            Ok(Some(presign(alloc, &short, message, &target)?))\n        }\n", ["presign.txt"]),
    ("presign_cmd target_if_unsigned: the names of a signature stay", "presign_cmd/src/message.rt", 1, "    if has_signature_name(&target) {", "    if !has_signature_name(&target) {", ["presign.txt"]),
    ("memory_swift exchange: its lists of lost messages aren't looked at", "memory_swift/src/store_link.rt", 1, "let outcome = self.outcome(number);", "let outcome = self.outcome(0);"),
    ("memory_swift hand_or_lose_message: a request whose answer is lost isn't served", "memory_swift/src/store_link.rt", 1, "let _failed = store.hand_request_bytes(request, answer)?;", "let _failed = false;"),
    ("memory_swift hand_or_lose_message: a lost request is served", "memory_swift/src/store_link.rt", 1, "Outcome::LostBefore => Ok(true),", "Outcome::LostBefore => store.hand_request_bytes(request, answer),"),
    ("sigv4 are_same_signatures: the last byte alone", "sigv4/src/signature.rt", 1, "same = (one == other) & same;", "same = one == other;", ["sigv4.txt", "signatures.txt"]),
    ("list_pages take: a text is shown again", "list_pages/src/roll.rt", 1, "        if self.is_last_text(text) {", "        if self.is_last_text(text) && self.max == 0 {", ["listings.txt"]),
    ("list_pages is_behind: the marker is shown", "list_pages/src/roll.rt", 1, "        self.marker.as_slice().cmp(text).is_lt()", "        self.marker.as_slice().cmp(text).is_le()", ["listings.txt"]),
    ("many_keys get_sub_manifests: the first each time", "many_keys/src/manifests.rt", 1, "        let listed = get_sub_manifest(state, bucket, id, n)?;", "        let listed = get_sub_manifest(state, bucket, id, 0)?;", ["many-parts.txt"]),
    ("many_keys put_copied_sub_manifest: each as the first", "many_keys/src/sub_manifests.rt", 1, "    let request = sub_manifest_request(alloc, sealed, segments, n)?;", "    let request = sub_manifest_request(alloc, sealed, segments, 0)?;", ["many-parts.txt"]),
    ("list_pages next_marker: it stays at the first", "list_pages/src/roll.rt", 1, "        self.last.as_slice()", "        self.marker.as_slice()", ["listings.txt"]),
    ("list_pages finish: truncated where nothing is wanted", "list_pages/src/roll.rt", 1, "        let truncated = 0 < self.max && self.more;", "        let truncated = self.more;", ["listings.txt"]),
    ("object_rows content_of: any other kind is a list", "object_rows/src/row.rt", 1, "    } else if kind == LIST {\n", "    } else if kind >= LIST {\n", OUTSIDE),
    ("object_rows has_hash: a hash of its length is taken", "object_rows/src/row.rt", 1, "    Ok(etag.as_slice() == hash)\n", "    Ok(etag.len() == hash.len())\n", OUTSIDE),
    ("planner found_object: a missing bucket is asked for again", "planner/src/reading.rt", 1, "        return Ok(Reading::Whole(Reply::Refused(Code::NoSuchBucket)));\n", "        head_bucket(state, &read.bucket)?;\n        return Ok(Reading::Whole(Reply::Refused(Code::NoSuchBucket)));\n", ["objects.txt"]),
    ("planner read_piece: one byte more is asked for", "planner/src/reading.rt", 1, "        Some((first, first + (size - 1))),\n", "        Some((first, first + size)),\n", ["ranges.txt"]),
    ("planner delete_key: a call that failed is passed over", "planner/src/deletions.rt", 1, "    delete_object(state, ObjectName { bucket, key })\n", "    delete_object(state, ObjectName { bucket, key }).or(Ok(()))\n", ["many_keys.txt"]),
    ("many_keys put_copy_of_parts: the object without its sub-manifests", "many_keys/src/listed.rt", 1, "    put_copied_sub_manifests(state, sealed)?;\n", "    if false {\n        put_copied_sub_manifests(state, sealed)?;\n    }\n", ["many-parts.txt"]),
    ("gateway_cmd settle_for_command: nothing is settled", "gateway_cmd/src/recover.rt", 1, "    Unsure::open(alloc, store, &settings).settle()\n", "    let _unsure = Unsure::open(alloc, store, &settings);\n    Ok(())\n", ["recover.txt"]),
    ("gateway_cmd unsettled_outcome: settled where the store failed", "gateway_cmd/src/recover.rt", 1, "        SettleFault::Failed => RunOutcome::Plain(Status::Store),\n", "        SettleFault::Failed => RunOutcome::Told(Told::Settled),\n", ["recover.txt"]),
    ("gateway_cmd serve_another: done where the line failed", "gateway_cmd/src/session.rt", 1, "        Err(_) => Some(Stopped::Line),\n", "        Err(_) => Some(Stopped::Done),\n", ["serve.txt"]),
    ("gateway_cmd serve_another: nothing is served", "gateway_cmd/src/session.rt", 1, "            let _ended = serve_connection(alloc, service, lent);\n", "            lent.line.close();\n"),
    ("http_service one_less: no connection is counted", "http_service/src/run.rt", 1, "        Some(left) => Some(left.saturating_sub(1)),\n", "        Some(left) => Some(left.saturating_sub(0)),\n", ["store_cmd.txt", "serve.txt"]),
    ("http_service serve_another: nothing is served", "http_service/src/run.rt", 1, "            let _ended = serve_connection(alloc, service, line);\n", "            line.close();\n", ["store_cmd.txt"]),
    ("store_cmd report_store_run: a report where all was served", "store_cmd/src/command.rt", 1, "        return 0;\n", "        let _ = report.put(b\"swiftd: done\\n\");\n        return 0;\n", ["store_cmd.txt"]),
    ("store_cmd answer_message: nothing is answered", "store_cmd/src/service.rt", 1, "        Ok(()) => send_piece(line, &NoCount, text.as_slice(), ended_after_answer(last)),\n", "        Ok(()) => ended_after_answer(last),\n", ["store_cmd.txt"]),
    ("store_cmd is_file_path: an empty path is taken", "store_cmd/src/words.rt", 1, "    1 <= path.len() && path.len() <= LONGEST_PATH\n", "    path.len() <= LONGEST_PATH\n", ["store_cmd.txt"]),
]

# The files of cases that are run, which are those that take least time without a proof.
FILES = ["buckets.txt", "objects.txt", "faults.txt"]


def expected(files):
    """What the program is to print for these files, as the crate's stdout has it."""
    parts, name = {}, None
    for line in open("crates/cases/stdout", encoding="utf-8"):
        if line.startswith("file "):
            name = line[5:].rstrip("\n")
            parts[name] = []
        parts[name].append(line)
    return "".join(line for name in files for line in parts[name])


def places_of(top, file, number, old):
    """The text of a file, cut at a text, if the file is there and has that so many times."""
    path = f"{top}/{file}"
    text = open(path, encoding="utf-8").read() if os.path.exists(path) else ""
    places = text.split(old)
    return (text, places) if len(places) > number else (text, None)


def tried(room, file, number, old, new, files=FILES):
    """Whether a run of the cases over the crates with the fault in them prints something else, and what is said of it."""
    path = f"{room}/crates/{file}"
    text, places = places_of(f"{room}/crates", file, number, old)
    if places is None:
        return False, f"the text isn't there: {old.splitlines()[0]}"
    with open(path, "w", encoding="utf-8") as it:
        it.write(old.join(places[:number]) + new + old.join(places[number:]))
    if files == OUTSIDE:
        ran = subprocess.run(["rt", "try", "--test", "--seconds", "300"], cwd=f"{room}/crates/{OUTSIDE}", stdin=subprocess.DEVNULL, capture_output=True, text=True, errors="replace")
        with open(path, "w", encoding="utf-8") as it:
            it.write(text)
        told = (ran.stdout + ran.stderr).strip().splitlines()
        failed = [line for line in told if "failed" in line]
        return bool(failed) and ran.returncode != 0, (failed or told)[-1:]
    folder = f"{room}/crates/cases"
    data = [word for name in files for word in ("--data", f"{name}=data/{name}")]
    ran = subprocess.run(["rt", "try", "--seconds", "300", *data, "--", *files], cwd=folder, stdin=subprocess.DEVNULL, capture_output=True, text=True, errors="replace")
    with open(path, "w", encoding="utf-8") as it:
        it.write(text)
    if "run=fault" in ran.stderr + ran.stdout:
        return True, "the run ends by a fault, before it printed anything"
    if not ran.stdout.startswith("file "):
        return False, f"no run: {(ran.stderr or ran.stdout).strip().splitlines()[-1:]}"
    due, came = expected(files).splitlines(), ran.stdout.splitlines()
    for number, (one, other) in enumerate(zip(due + [""], came + [""])):
        if one != other:
            return True, f"line {number + 1}: {one[:60]} | {other[:60]}"
    return False, "nothing differs"


def main():
    words = sys.argv[1:]
    if words == ["--texts"]:
        missing = [name for name, file, number, old, *_ in FAULTS if places_of("crates", file, number, old)[1] is None]
        for name in missing:
            print(f"the text of this fault isn't there: {name}")
        sys.exit(1 if missing else 0)
    unseen = 0
    with tempfile.TemporaryDirectory() as room:
        shutil.copytree("crates", f"{room}/crates", ignore=shutil.ignore_patterns("out"))
        shutil.copy("crates.txt", room)
        os.mkdir(f"{room}/.git")
        for name, *fault in FAULTS:
            if not words or words[0] in name:
                seen, said = tried(room, *fault)
                unseen += not seen
                print(f"{'seen' if seen else 'UNSEEN'}  {name}: {said}", flush=True)
    sys.exit(1 if unseen else 0)


main()
PYTHON
