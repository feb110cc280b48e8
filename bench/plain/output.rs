//! Writes the journal and the report.
use crate::{Actor, Answer, Call, Database, Event, Fate, Goal, Id, Meta, Origin, Priority, Reply, Request, Span, Ts, View, Why};
use std::collections::BTreeMap;
use std::fmt::{self, Display, Formatter};
use std::io::Write;

impl Display for Ts {
    fn fmt(&self, f: &mut Formatter) -> fmt::Result {
        write!(f, "{}.{}", self.wall, self.logical)
    }
}

impl Display for Id {
    fn fmt(&self, f: &mut Formatter) -> fmt::Result {
        write!(f, "{}.{}", self.session, self.number)
    }
}

impl Display for Priority {
    fn fmt(&self, f: &mut Formatter) -> fmt::Result {
        f.write_str(match self {
            Priority::Low => "low",
            Priority::Normal => "normal",
            Priority::High => "high",
        })
    }
}

impl Display for Meta {
    fn fmt(&self, f: &mut Formatter) -> fmt::Result {
        write!(f, "{}:{}:{}:{}:{}", self.id, self.epoch, self.priority, self.born, self.anchor)
    }
}

impl Display for Why {
    fn fmt(&self, f: &mut Formatter) -> fmt::Result {
        match self {
            Why::Client => f.write_str("client"),
            Why::Pushed(by) => write!(f, "pushed:{by}"),
        }
    }
}

impl Display for Fate {
    fn fmt(&self, f: &mut Formatter) -> fmt::Result {
        match self {
            Fate::Committed { epoch, ts } => write!(f, "committed {epoch} {ts}"),
            Fate::Aborted => f.write_str("aborted"),
            Fate::Pending(ts) => write!(f, "pending {ts}"),
        }
    }
}

impl Display for Goal {
    fn fmt(&self, f: &mut Formatter) -> fmt::Result {
        match self {
            Goal::Abort => f.write_str("abort"),
            Goal::Move(ts) => write!(f, "move {ts}"),
        }
    }
}

impl Display for Span {
    fn fmt(&self, f: &mut Formatter) -> fmt::Result {
        write!(f, "{},{}", self.from.as_deref().unwrap_or("-"), self.to.as_deref().unwrap_or("-"))
    }
}

impl Display for Origin {
    fn fmt(&self, f: &mut Formatter) -> fmt::Result {
        match self {
            Origin::Own => f.write_str("own"),
            Origin::At(ts) => write!(f, "{ts}"),
            Origin::Nothing => f.write_str("-"),
        }
    }
}

struct OrDash<'a>(&'a Option<String>);

impl Display for OrDash<'_> {
    fn fmt(&self, f: &mut Formatter) -> fmt::Result {
        match self.0 {
            Some(value) => write!(f, "={value}"),
            None => f.write_str("-"),
        }
    }
}

struct Listed<'a, T>(&'a [T], fn(&T, &mut Formatter) -> fmt::Result);

impl<T> Display for Listed<'_, T> {
    fn fmt(&self, f: &mut Formatter) -> fmt::Result {
        if self.0.is_empty() {
            return f.write_str("-");
        }
        for (at, item) in self.0.iter().enumerate() {
            if at > 0 {
                f.write_str(",")?;
            }
            self.1(item, f)?;
        }
        Ok(())
    }
}

fn keys(keys: &[String]) -> Listed<'_, String> {
    Listed(keys, |key, f| f.write_str(key))
}

impl Display for View {
    fn fmt(&self, f: &mut Formatter) -> fmt::Result {
        match self {
            View::Nothing => f.write_str("none"),
            View::Pending { epoch, ts } => write!(f, "pending {epoch} {ts}"),
            View::Committed { epoch, ts, locks } => write!(f, "committed {epoch} {ts} {}", keys(locks)),
            View::Aborted { epoch, why, locks } => write!(f, "aborted {epoch} {why} {}", keys(locks)),
        }
    }
}

impl Display for Request {
    fn fmt(&self, f: &mut Formatter) -> fmt::Result {
        match self {
            Request::Get { id, epoch, seq, ts, key } => write!(f, "get {id}:{epoch}:{seq} {ts} {key}"),
            Request::Scan { id, epoch, seq, ts, span } => write!(f, "scan {id}:{epoch}:{seq} {ts} {span}"),
            Request::Put { meta, seq, ts, key, value } => write!(f, "put {meta} {seq} {ts} {key} {}", OrDash(value)),
            Request::Commit { meta, ts, locks } => write!(f, "commit {meta} {ts} {}", keys(locks)),
            Request::Abort { meta, locks } => write!(f, "abort {meta} client {}", keys(locks)),
            Request::Push { holder, by, level, now, goal } => write!(f, "push {holder} {by} {level} {now} {goal}"),
            Request::Resolve { id, key, fate } => write!(f, "resolve {id} {key} {fate}"),
            Request::Remove { id, anchor } => write!(f, "remove {id} {anchor}"),
        }
    }
}

impl Display for Reply {
    fn fmt(&self, f: &mut Formatter) -> fmt::Result {
        match self {
            Reply::Value { origin, value } => write!(f, "value {origin} {}", OrDash(value)),
            Reply::Rows(rows) => write!(f, "rows {}", Listed(rows, |row, f| write!(f, "{}@{}={}", row.key, row.origin, row.value))),
            Reply::Conflict { holder, ts, key } => write!(f, "conflict {holder} {ts} {key}"),
            Reply::Written(ts) => write!(f, "written {ts}"),
            Reply::Status(view) => write!(f, "status {view}"),
            Reply::Refused(view) => write!(f, "refused {view}"),
            Reply::Resolved => f.write_str("resolved"),
            Reply::Removed => f.write_str("removed"),
        }
    }
}

impl Display for Call {
    fn fmt(&self, f: &mut Formatter) -> fmt::Result {
        match self {
            Call::Begin(priority) => write!(f, "begin {priority}"),
            Call::Get(key) => write!(f, "get {key}"),
            Call::Scan(span) => write!(f, "scan {span}"),
            Call::Put(key, Some(value)) => write!(f, "put {key} ={value}"),
            Call::Put(key, None) => write!(f, "delete {key}"),
            Call::Commit => f.write_str("commit"),
            Call::Rollback => f.write_str("rollback"),
        }
    }
}

impl Display for Answer {
    fn fmt(&self, f: &mut Formatter) -> fmt::Result {
        match self {
            Answer::Begun(id, ts) => write!(f, "begun {id} {ts}"),
            Answer::Value(value) => write!(f, "value {}", OrDash(value)),
            Answer::Rows(rows) => write!(f, "rows {}", Listed(rows, |row, f| write!(f, "{}={}", row.0, row.1))),
            Answer::Written => f.write_str("written"),
            Answer::Committed(id, ts) => write!(f, "committed {id} {ts}"),
            Answer::RolledBack(id, why) => write!(f, "rolledback {id} {why}"),
            Answer::Blocked(id) => write!(f, "blocked {id}"),
            Answer::Aborted(why) => write!(f, "aborted {why}"),
            Answer::Moved(ts) => write!(f, "moved {ts}"),
            Answer::Clock(reading) => write!(f, "clock {reading}"),
        }
    }
}

impl Display for Actor {
    fn fmt(&self, f: &mut Formatter) -> fmt::Result {
        match self {
            Actor::Range(number) => write!(f, "r{number}"),
            Actor::Session(number) => write!(f, "s{number}"),
        }
    }
}

impl Display for Event {
    fn fmt(&self, f: &mut Formatter) -> fmt::Result {
        match self {
            Event::Ask(call, reading) => write!(f, "ask {call} @{reading}"),
            Event::Send(number, range, request) => write!(f, "send {number} r{range} {request}"),
            Event::Eval(session, number, reply) => write!(f, "eval s{session} {number} {reply}"),
            Event::Hear(number, step) => write!(f, "hear {number} {step}"),
            Event::Tell(answer) => write!(f, "tell {answer}"),
        }
    }
}

/// The journal and the report.
pub fn print(db: &Database, sessions: usize) -> Vec<u8> {
    let mut out = Vec::new();
    write!(out, "journal 1\nranges {}", db.ranges.len()).unwrap();
    for split in &db.splits {
        write!(out, " {split}").unwrap();
    }
    write!(out, "\nactors {sessions} 0\n").unwrap();
    for (step, (actor, event)) in db.entries.iter().enumerate() {
        writeln!(out, "{step} {actor} {event}").unwrap();
    }
    report(db, &mut out);
    out
}

#[derive(Default)]
struct Fared<'a> {
    writes: BTreeMap<&'a str, &'a Option<String>>,
    /// Its timestamp and the step at which it was committed.
    committed: Option<(Ts, usize)>,
    aborted: Option<Why>,
    has_record: bool,
}

fn report(db: &Database, out: &mut Vec<u8>) {
    let mut all: BTreeMap<Id, Fared> = BTreeMap::new();
    let mut asked = BTreeMap::new();
    for (step, (actor, event)) in db.entries.iter().enumerate() {
        match event {
            Event::Send(number, _, request) => {
                if let Request::Put { meta, key, value, .. } = request {
                    all.entry(meta.id).or_default().writes.insert(key, value);
                }
                if let (Actor::Session(session), Request::Commit { meta, .. } | Request::Abort { meta, .. } | Request::Push { holder: meta, .. }) = (actor, request) {
                    asked.insert((*session, *number), meta.id);
                }
            }
            Event::Eval(session, number, Reply::Status(view)) => {
                if let Some(id) = asked.remove(&(*session, *number)) {
                    let fared = all.entry(id).or_default();
                    match view {
                        View::Committed { ts, .. } => fared.committed = fared.committed.or(Some((*ts, step))),
                        View::Aborted { why, .. } => fared.aborted = Some(*why),
                        View::Pending { .. } => fared.has_record = true,
                        View::Nothing => {}
                    }
                }
            }
            Event::Tell(Answer::Begun(id, _)) => {
                all.entry(*id).or_default();
            }
            Event::Tell(Answer::Committed(id, ts)) => {
                let fared = all.entry(*id).or_default();
                fared.committed = fared.committed.or(Some((*ts, step)));
            }
            Event::Tell(Answer::RolledBack(id, why)) => {
                let fared = all.entry(*id).or_default();
                fared.aborted = fared.aborted.or(Some(*why));
            }
            _ => {}
        }
    }
    let mut order: Vec<(Ts, usize, Id)> = all.iter().filter_map(|(id, fared)| fared.committed.map(|at| (at.0, at.1, *id))).collect();
    order.sort();
    let mut map = BTreeMap::new();
    writeln!(out, "report").unwrap();
    for (ts, _, id) in order {
        let writes: Vec<_> = all[&id].writes.iter().collect();
        writeln!(out, "committed {id} {ts} {}", Listed(&writes, |write, f| write!(f, "{}{}", write.0, OrDash(write.1)))).unwrap();
        for (key, value) in writes {
            match value {
                Some(value) => map.insert(*key, value),
                None => map.remove(key),
            };
        }
    }
    for (id, fared) in all.iter().filter(|fared| fared.1.committed.is_none()) {
        match fared.aborted {
            Some(why) => writeln!(out, "aborted {id} {why}").unwrap(),
            None => writeln!(out, "open {id} {}", if fared.has_record { "pending" } else { "none" }).unwrap(),
        }
    }
    for (key, value) in map {
        writeln!(out, "map {key}={value}").unwrap();
    }
    writeln!(out, "end").unwrap();
}
