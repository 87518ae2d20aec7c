//! What K7 tells apart, as far as a call's answer shows it: anchors that were moved or lost, marks, and
//! stamps behind another geometry.

use splitter::answer::{Answer, Outcome, Row};
use splitter::call::Call;
use splitter::state::{Anchor, State};

/// What must be seen: groups, and what is told apart in each.
pub const GROUPS: [(&str, &[&str]); 10] = [
    (MOVED, FRAMES),
    ("anchors moved, code", CODES),
    ("anchors moved to", &["2^62", "-2^62", "another time"]),
    (LOST, FRAMES),
    ("marks made by tails", &["of the first anchor", "of a later anchor"]),
    (LEARNT, FRAMES),
    ("marks learnt, code", CODES),
    (
        "marks kept",
        &["by a tail that counts", "by a push that does not", "by a flush without a frame"],
    ),
    ("stamps behind another geometry", &["in a payload", "at its start"]),
    ("marked anchors of rate 0", &["give the bare timestamp"]),
];

const MOVED: &str = "anchors moved by";
const LOST: &str = "anchors that left the bounds by";
const LEARNT: &str = "marks learnt from";

/// By what an anchor is moved, lost or taught.
const FRAMES: &[&str] = &["a frame given", "a frame kept", "a frame flushed"];
const CODES: &[&str] = &["0", "1", "2"];

/// The end of number 10's bounds.
const FAR: i64 = 1 << 62;

/// What a call showed: groups and names in them.
pub fn seen(call: &Call, before: &State, answer: &Answer) -> Vec<(&'static str, &'static str)> {
    match (call, &answer.outcome) {
        (Call::Push(..) | Call::Flush(_), Outcome::Written) => {}
        (Call::Flush(_), Outcome::Nothing) if before.anchor.is_some_and(|a| a.unread) => {
            return vec![("marks kept", "by a flush without a frame")];
        }
        _ => return Vec::new(),
    }
    let time = if let Call::Push(pts, ..) = call { *pts } else { None };
    let frame = match (call, answer.rows.is_empty()) {
        (Call::Flush(_), _) => FRAMES[2],
        (_, true) => FRAMES[1],
        (_, false) => FRAMES[0],
    };
    let code = CODES[before.code as usize % 3];
    let mut seen = match (before.anchor, answer.state.anchor) {
        (Some(_), None) => vec![(LOST, frame)],
        (Some(old), Some(new)) if time.is_none() => followed(old, new, frame, code),
        (old, Some(new)) if new.unread && time == Some(new.pts) => {
            vec![("marks made by tails", GROUPS[4].1[usize::from(old.is_some())])]
        }
        _ => Vec::new(),
    };
    seen.extend(rows(before.anchor.filter(|_| time.is_none()), &answer.rows));
    seen
}

/// What became of an anchor in a call without a timestamp.
fn followed(
    old: Anchor,
    new: Anchor,
    frame: &'static str,
    code: &'static str,
) -> Vec<(&'static str, &'static str)> {
    if old.pts != new.pts {
        let to = match new.pts {
            FAR => "2^62",
            pts if pts == -FAR => "-2^62",
            _ => "another time",
        };
        return vec![(MOVED, frame), ("anchors moved, code", code), ("anchors moved to", to)];
    }
    match (old.unread, new.unread, new.frames > old.frames) {
        (true, false, _) => vec![(LEARNT, frame), ("marks learnt, code", code)],
        (true, true, true) if new.rate == 0 => {
            vec![("marks kept", "by a tail that counts"), (GROUPS[9].0, GROUPS[9].1[0])]
        }
        (true, true, true) => vec![("marks kept", "by a tail that counts")],
        (true, true, false) => vec![("marks kept", "by a push that does not")],
        (false, ..) => Vec::new(),
    }
}

/// Frames with a stamp whose geometry is not that of the frame or anchor before.
fn rows(anchor: Option<Anchor>, rows: &[Row]) -> Vec<(&'static str, &'static str)> {
    let geometry = |row: &Row| (row[2], row[3]);
    let group = GROUPS[8].0;
    let mut seen = Vec::new();
    if let (Some(anchor), Some(row)) = (anchor.filter(|anchor| !anchor.unread), rows.first()) {
        if row[6] == 1 && geometry(row) != (anchor.samples.into(), anchor.rate.into()) {
            seen.push((group, "at its start"));
        }
    }
    let pairs = rows.windows(2).filter(|pair| pair[1][6] == 1);
    let changed = pairs.filter(|pair| geometry(&pair[0]) != geometry(&pair[1]));
    seen.extend(changed.map(|_| (group, "in a payload")));
    seen
}
