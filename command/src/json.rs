//! An answer as a line of JSON. Every line has the same keys; what isn't there is null.

use std::path::Path;

use serde_json::{json, Value};
use space_check::{Claimant, Kind, Lost, Overlap, Problem, Refusal, Report};

use crate::checked::Checked;
use crate::explain;
use crate::status::Status;

const REFUSED: &str = "refused";
const UNREADABLE: &str = "unreadable";

pub fn checked(checked: &Checked) -> String {
    let answer = match &checked.answer {
        Ok(report) => report.verdict.name(),
        Err(_) => REFUSED,
    };
    let report = checked.answer.as_ref().ok();
    line(json!({
        "image": checked.image.to_string_lossy(),
        "partition": checked.container.partition,
        "offset": checked.container.offset,
        "length": checked.container.bytes.len(),
        "answer": answer,
        "exit_status": Status::of(&checked.answer) as u8,
        "block_size": report.map(|_| space_check::block_size(checked.container.bytes)),
        "block_count": report.map(|_| checked.map.len()),
        "report": report.map(of_report),
        "refusal": checked.answer.as_ref().err().map(|&refusal| of_refusal(refusal)),
        "note": checked.container.note,
        "error": null,
    }))
}

pub fn no_answer(image: &Path, reason: &str) -> String {
    line(json!({
        "image": image.to_string_lossy(),
        "partition": null,
        "offset": null,
        "length": null,
        "answer": UNREADABLE,
        "exit_status": Status::NoAnswer as u8,
        "block_size": null,
        "block_count": null,
        "report": null,
        "refusal": null,
        "note": null,
        "error": reason,
    }))
}

fn line(value: Value) -> String {
    format!("{value}\n")
}

fn of_report(report: &Report) -> Value {
    json!({
        "xid": report.xid,
        "pool_used": report.pool_used,
        "pool_unused": report.pool_unused,
        "free_ring": report.free_ring,
        "problems": { "total": report.problems.total, "first": all(&report.problems.first, of_problem) },
        "free": report.free,
        "wrong_chunks": report.wrong_chunks,
        "device_free": report.device_free,
        "overlaps": {
            "total": report.overlaps.total,
            "claimants": all(&report.claimants, of_claimant),
            "first": all(&report.overlaps.first, of_overlap),
        },
        "lost": { "total": report.lost_blocks(), "kinds": all(&report.lost, of_lost) },
        "leaked": report.leaked,
        "verdict": { "number": report.verdict.number(), "name": report.verdict.name() },
    })
}

fn all<T>(list: &[T], of_one: fn(&T) -> Value) -> Vec<Value> {
    list.iter().map(of_one).collect()
}

fn of_problem(problem: &Problem) -> Value {
    json!({ "number": problem.kind.number(), "name": problem.kind.name(), "block": problem.block })
}

fn of_overlap(overlap: &Overlap) -> Value {
    json!({ "block": overlap.block, "owner": of_kind(overlap.owner), "claimant": of_kind(overlap.claimant) })
}

fn of_kind(kind: Kind) -> Value {
    json!({ "number": kind.number(), "name": kind.name() })
}

fn of_claimant(claimant: &Claimant) -> Value {
    json!({ "number": claimant.kind.number(), "name": claimant.kind.name(), "count": claimant.count })
}

fn of_lost(lost: &Lost) -> Value {
    json!({ "number": lost.kind.number(), "name": lost.kind.name(), "count": lost.count, "first": lost.first })
}

fn of_refusal(refusal: Refusal) -> Value {
    json!({ "number": refusal.number(), "name": refusal.name(), "next": explain::advice(refusal) })
}
