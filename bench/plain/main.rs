//! The same protocol as a plain program, by which the proved one is measured: it reads a workload of the accepted form, without its
//! refusals, and writes the journal and the report.
//!
//!     rustc --edition 2024 -C opt-level=3 bench/plain/main.rs -o plain
//!     ./plain run < FILE
mod input;
mod output;

use std::collections::{BTreeMap, BTreeSet, VecDeque};
use std::io::{Read, Write};
use std::ops::Bound;

const EXPIRY: u64 = 5_000_000_000;
const LAST_READING: u64 = 1 << 62;
const CONFLICTS: u32 = 8;

#[derive(Clone, Copy, PartialEq, Eq, PartialOrd, Ord)]
struct Ts {
    wall: u64,
    logical: u32,
}

const ZERO: Ts = Ts { wall: 0, logical: 0 };

impl Ts {
    fn next(self) -> Ts {
        if self.logical < u32::MAX {
            return Ts { wall: self.wall, logical: self.logical + 1 };
        }
        Ts { wall: self.wall + 1, logical: 0 }
    }
}

#[derive(Clone, Copy, PartialEq, Eq, PartialOrd, Ord)]
struct Id {
    session: u32,
    number: u32,
}

#[derive(Clone, Copy, PartialEq, Eq, PartialOrd, Ord)]
enum Priority {
    Low,
    Normal,
    High,
}

#[derive(Clone)]
struct Meta {
    id: Id,
    epoch: u32,
    priority: Priority,
    born: u64,
    anchor: String,
}

#[derive(Clone, Copy)]
enum Why {
    Client,
    Pushed(Id),
}

#[derive(Clone, Copy)]
enum Standing {
    Pending,
    Committed,
    Aborted(Why),
}

#[derive(Clone, Copy)]
enum Fate {
    Committed { epoch: u32, ts: Ts },
    Aborted,
    Pending(Ts),
}

#[derive(Clone, Copy)]
enum Goal {
    Abort,
    Move(Ts),
}

#[derive(Clone)]
struct Span {
    from: Option<String>,
    to: Option<String>,
}

enum Request {
    Get { id: Id, epoch: u32, seq: u32, ts: Ts, key: String },
    Scan { id: Id, epoch: u32, seq: u32, ts: Ts, span: Span },
    Put { meta: Meta, seq: u32, ts: Ts, key: String, value: Option<String> },
    Commit { meta: Meta, ts: Ts, locks: Vec<String> },
    Abort { meta: Meta, locks: Vec<String> },
    Push { holder: Meta, by: Id, level: Priority, now: u64, goal: Goal },
    Resolve { id: Id, key: String, fate: Fate },
    Remove { id: Id, anchor: String },
}

enum View {
    Nothing,
    Pending { epoch: u32, ts: Ts },
    Committed { epoch: u32, ts: Ts, locks: Vec<String> },
    Aborted { epoch: u32, why: Why, locks: Vec<String> },
}

#[derive(Clone, Copy)]
enum Origin {
    Own,
    At(Ts),
    Nothing,
}

struct Row {
    key: String,
    origin: Origin,
    value: String,
}

enum Reply {
    Value { origin: Origin, value: Option<String> },
    Rows(Vec<Row>),
    Conflict { holder: Meta, ts: Ts, key: String },
    Written(Ts),
    Status(View),
    Refused(View),
    Resolved,
    Removed,
}

#[derive(Clone)]
enum Call {
    Begin(Priority),
    Get(String),
    Scan(Span),
    Put(String, Option<String>),
    Commit,
    Rollback,
}

enum Answer {
    Begun(Id, Ts),
    Value(Option<String>),
    Rows(Vec<(String, String)>),
    Written,
    Committed(Id, Ts),
    RolledBack(Id, Why),
    Blocked(Id),
    Aborted(Why),
    Moved(Ts),
    Clock(u64),
}

#[derive(Clone, Copy)]
enum Actor {
    Range(u32),
    Session(u32),
}

enum Event {
    Ask(Call, u64),
    Send(u64, u32, Request),
    Eval(u32, u64, Reply),
    Hear(u64, usize),
    Tell(Answer),
}

// ---- a range ----

struct Version {
    ts: Ts,
    value: Option<String>,
}

struct Intent {
    meta: Meta,
    ts: Ts,
    history: Vec<(u32, Option<String>)>,
}

struct Record {
    standing: Standing,
    epoch: u32,
    ts: Ts,
    activity: u64,
    locks: Vec<String>,
}

struct Range {
    versions: BTreeMap<String, Vec<Version>>,
    intents: BTreeMap<String, Intent>,
    bound: Ts,
    owner: Option<Id>,
    records: BTreeMap<Id, Record>,
    marks: BTreeMap<Id, (Standing, u32, Ts)>,
}

fn bounds(span: &Span) -> (Bound<&str>, Bound<&str>) {
    let low = span.from.as_deref().map_or(Bound::Unbounded, Bound::Included);
    let high = span.to.as_deref().map_or(Bound::Unbounded, Bound::Excluded);
    (low, high)
}

fn seen(chain: &[Version], ts: Ts) -> Option<&Version> {
    let count = chain.partition_point(|version| version.ts <= ts);
    chain[..count].last()
}

fn own_value(intent: &Intent, id: Id, epoch: u32, seq: u32) -> Option<&Option<String>> {
    if intent.meta.id != id || intent.meta.epoch != epoch {
        return None;
    }
    intent.history.iter().rev().find(|write| write.0 <= seq).map(|write| &write.1)
}

impl Range {
    fn new() -> Range {
        Range {
            versions: BTreeMap::new(),
            intents: BTreeMap::new(),
            bound: ZERO,
            owner: None,
            records: BTreeMap::new(),
            marks: BTreeMap::new(),
        }
    }

    fn raise(&mut self, ts: Ts, reader: Id) {
        if self.bound < ts {
            self.owner = Some(reader);
            self.bound = ts;
        } else if self.bound == ts && self.owner != Some(reader) {
            self.owner = None;
        }
    }

    fn eval(&mut self, request: &Request) -> Reply {
        match request {
            Request::Get { id, epoch, seq, ts, key } => self.get(*id, *epoch, *seq, *ts, key),
            Request::Scan { id, epoch, seq, ts, span } => self.scan(*id, *epoch, *seq, *ts, span),
            Request::Put { meta, seq, ts, key, value } => self.put(meta, *seq, *ts, key, value),
            Request::Commit { meta, ts, locks } => {
                if self.is_open(meta.id) && self.records.get(&meta.id).is_none_or(|r| r.epoch <= meta.epoch && r.ts <= *ts) {
                    self.write(meta, Standing::Committed, meta.epoch, *ts, locks.clone());
                }
                Reply::Status(self.view(meta.id))
            }
            Request::Abort { meta, locks } => {
                if self.is_open(meta.id) {
                    let (epoch, ts) = self.records.get(&meta.id).map_or((meta.epoch, ZERO), |r| (r.epoch.max(meta.epoch), r.ts));
                    self.write(meta, Standing::Aborted(Why::Client), epoch, ts, locks.clone());
                }
                Reply::Status(self.view(meta.id))
            }
            Request::Push { holder, by, level, now, goal } => self.push(holder, *by, *level, *now, *goal),
            Request::Resolve { id, key, fate } => {
                self.resolve(*id, key, *fate);
                Reply::Resolved
            }
            Request::Remove { id, .. } => {
                if self.is_open(*id) {
                    return Reply::Status(self.view(*id));
                }
                if let Some(record) = self.records.remove(id) {
                    self.marks.insert(*id, (record.standing, record.epoch, record.ts));
                }
                Reply::Removed
            }
        }
    }

    fn get(&mut self, id: Id, epoch: u32, seq: u32, ts: Ts, key: &str) -> Reply {
        let intent = self.intents.get(key);
        if let Some(other) = intent.filter(|i| i.meta.id != id && i.ts <= ts) {
            return Reply::Conflict { holder: other.meta.clone(), ts: other.ts, key: key.into() };
        }
        let (origin, value) = match intent.and_then(|i| own_value(i, id, epoch, seq)) {
            Some(value) => (Origin::Own, value.clone()),
            None => match self.versions.get(key).and_then(|chain| seen(chain, ts)) {
                Some(version) => (Origin::At(version.ts), version.value.clone()),
                None => (Origin::Nothing, None),
            },
        };
        self.raise(ts, id);
        Reply::Value { origin, value }
    }

    fn scan(&mut self, id: Id, epoch: u32, seq: u32, ts: Ts, span: &Span) -> Reply {
        let mut own = BTreeMap::new();
        for (key, intent) in self.intents.range::<str, _>(bounds(span)) {
            if intent.meta.id != id && intent.ts <= ts {
                return Reply::Conflict { holder: intent.meta.clone(), ts: intent.ts, key: key.clone() };
            }
            if let Some(value) = own_value(intent, id, epoch, seq) {
                own.insert(key, value);
            }
        }
        let mut rows = Vec::new();
        for (key, chain) in self.versions.range::<str, _>(bounds(span)) {
            while let Some((first, value)) = own.first_key_value().filter(|e| *e.0 < key) {
                push_row(&mut rows, first, Origin::Own, value);
                own.pop_first();
            }
            match own.remove(key) {
                Some(value) => push_row(&mut rows, key, Origin::Own, value),
                None => {
                    if let Some(version) = seen(chain, ts) {
                        push_row(&mut rows, key, Origin::At(version.ts), &version.value);
                    }
                }
            }
        }
        for (key, value) in own {
            push_row(&mut rows, key, Origin::Own, value);
        }
        self.raise(ts, id);
        Reply::Rows(rows)
    }

    fn put(&mut self, meta: &Meta, seq: u32, ts: Ts, key: &str, value: &Option<String>) -> Reply {
        let free = if self.owner == Some(meta.id) { self.bound } else { self.bound.next() };
        let newest = self.versions.get(key).and_then(|chain| chain.last()).map_or(ZERO, |version| version.ts.next());
        let mut ts = ts.max(free).max(newest);
        match self.intents.get_mut(key) {
            Some(other) if other.meta.id != meta.id => {
                return Reply::Conflict { holder: other.meta.clone(), ts: other.ts, key: key.into() };
            }
            Some(own) => {
                let last = own.history.iter().map(|write| write.0).max().unwrap_or(0);
                if meta.epoch < own.meta.epoch || own.meta.epoch == meta.epoch && seq <= last {
                    return Reply::Written(own.ts);
                }
                ts = ts.max(own.ts);
                if own.meta.epoch != meta.epoch {
                    own.meta = meta.clone();
                    own.history.clear();
                }
                own.ts = ts;
                own.history.push((seq, value.clone()));
            }
            None => {
                let history = vec![(seq, value.clone())];
                self.intents.insert(key.into(), Intent { meta: meta.clone(), ts, history });
            }
        }
        Reply::Written(ts)
    }

    fn resolve(&mut self, id: Id, key: &str, fate: Fate) {
        let Some(own) = self.intents.get_mut(key).filter(|i| i.meta.id == id) else {
            return;
        };
        if let Fate::Pending(ts) = fate {
            own.ts = own.ts.max(ts);
            return;
        }
        let (key, mut own) = self.intents.remove_entry(key).unwrap();
        if let Fate::Committed { epoch, ts } = fate
            && own.meta.epoch == epoch
            && own.ts <= ts
        {
            let value = own.history.pop().and_then(|write| write.1);
            let chain = self.versions.entry(key).or_default();
            let place = chain.partition_point(|kept| kept.ts <= ts);
            chain.insert(place, Version { ts, value });
        }
    }

    /// No mark and no final record.
    fn is_open(&self, id: Id) -> bool {
        match self.records.get(&id) {
            Some(record) => matches!(record.standing, Standing::Pending),
            None => !self.marks.contains_key(&id),
        }
    }

    fn write(&mut self, meta: &Meta, standing: Standing, epoch: u32, ts: Ts, locks: Vec<String>) {
        let record = self.records.entry(meta.id).or_insert(Record { standing, epoch, ts, activity: meta.born, locks: Vec::new() });
        (record.standing, record.epoch, record.ts, record.locks) = (standing, epoch, ts, locks);
    }

    fn push(&mut self, holder: &Meta, by: Id, level: Priority, now: u64, goal: Goal) -> Reply {
        let record = self.records.get(&holder.id);
        let there = record.is_some_and(|r| matches!(goal, Goal::Move(target) if target <= r.ts));
        if !self.is_open(holder.id) || there {
            return Reply::Status(self.view(holder.id));
        }
        let activity = record.map_or(holder.born, |r| r.activity);
        if holder.priority >= level && now.saturating_sub(activity) <= EXPIRY {
            return Reply::Refused(self.view(holder.id));
        }
        let (epoch, at) = record.map_or((holder.epoch, ZERO), |r| (r.epoch.max(holder.epoch), r.ts));
        let (standing, ts) = match goal {
            Goal::Abort => (Standing::Aborted(Why::Pushed(by)), at),
            Goal::Move(target) => (Standing::Pending, target),
        };
        self.write(holder, standing, epoch, ts, Vec::new());
        Reply::Status(self.view(holder.id))
    }

    fn view(&self, id: Id) -> View {
        let view = |standing, epoch, ts, locks| match standing {
            Standing::Pending => View::Pending { epoch, ts },
            Standing::Committed => View::Committed { epoch, ts, locks },
            Standing::Aborted(why) => View::Aborted { epoch, why, locks },
        };
        match (self.records.get(&id), self.marks.get(&id)) {
            (Some(r), _) => view(r.standing, r.epoch, r.ts, r.locks.clone()),
            (None, Some(m)) => view(m.0, m.1, m.2, Vec::new()),
            (None, None) => View::Nothing,
        }
    }
}

fn push_row(rows: &mut Vec<Row>, key: &str, origin: Origin, value: &Option<String>) {
    if let Some(value) = value {
        rows.push(Row { key: key.into(), origin, value: value.clone() });
    }
}

// ---- the database: ranges and the history ----

struct Database {
    splits: Vec<String>,
    ranges: Vec<Range>,
    entries: Vec<(Actor, Event)>,
}

impl Database {
    fn range_of(&self, key: &str) -> u32 {
        self.splits.partition_point(|split| split.as_str() <= key) as u32
    }

    fn target(&self, request: &Request) -> u32 {
        match request {
            Request::Get { key, .. } | Request::Put { key, .. } | Request::Resolve { key, .. } => self.range_of(key),
            Request::Scan { span, .. } => span.from.as_ref().map_or(0, |from| self.range_of(from)),
            Request::Commit { meta, .. } | Request::Abort { meta, .. } | Request::Push { holder: meta, .. } => self.range_of(&meta.anchor),
            Request::Remove { anchor, .. } => self.range_of(anchor),
        }
    }

    fn enter(&mut self, actor: Actor, event: Event) -> usize {
        self.entries.push((actor, event));
        self.entries.len() - 1
    }

    fn reply(&self, step: usize) -> &Reply {
        match &self.entries[step].1 {
            Event::Eval(_, _, reply) => reply,
            _ => unreachable!(),
        }
    }
}

// ---- a session ----

struct Txn {
    id: Id,
    priority: Priority,
    born: u64,
    seq: u32,
    read_ts: Ts,
    write_ts: Ts,
    anchor: Option<String>,
    locks: BTreeSet<String>,
    in_flight: Option<(String, Option<String>)>,
}

impl Txn {
    fn meta(&self) -> Meta {
        Meta { id: self.id, epoch: 0, priority: self.priority, born: self.born, anchor: self.anchor.clone().unwrap() }
    }

    fn locks(&self) -> Vec<String> {
        self.locks.iter().cloned().collect()
    }
}

struct Job {
    id: Id,
    anchor: String,
    fate: Fate,
    locks: BTreeSet<String>,
}

struct Item {
    calls: Vec<Call>,
}

struct Session {
    number: u32,
    clock: (u64, u64),
    reads: u64,
    reading: u64,
    items: Vec<Item>,
    place: (usize, usize),
    again: Option<Call>,
    reruns: u32,
    most_reruns: u32,
    latest: Ts,
    begun: u32,
    sends: u64,
    txn: Option<Txn>,
    jobs: VecDeque<Job>,
}

impl Session {
    fn next_call(&self) -> Option<Call> {
        self.again.clone().or_else(|| self.items.get(self.place.0).map(|item| item.calls[self.place.1].clone()))
    }

    fn next_item(&mut self) {
        self.place = (self.place.0 + 1, 0);
        (self.again, self.reruns) = (None, self.most_reruns);
    }

    /// The script goes on by what its call was told.
    fn goes_on(&mut self, call: Call, answer: &Answer) {
        match answer {
            Answer::Blocked(_) | Answer::Moved(_) => {
                if self.reruns == 0 {
                    self.again = Some(Call::Rollback);
                } else {
                    self.reruns -= 1;
                    self.again = Some(call);
                }
            }
            Answer::Committed(..) | Answer::RolledBack(..) | Answer::Aborted(_) | Answer::Clock(_) => self.next_item(),
            _ => (self.place.1, self.again) = (self.place.1 + 1, None),
        }
    }

    fn turn(&mut self, db: &mut Database) {
        let Some(call) = self.next_call() else {
            return;
        };
        self.reading = self.clock.0.saturating_add(self.reads.saturating_mul(self.clock.1));
        self.reads += 1;
        db.enter(Actor::Session(self.number), Event::Ask(call.clone(), self.reading));
        let answer = self.answer(db, &call);
        self.goes_on(call, &answer);
        db.enter(Actor::Session(self.number), Event::Tell(answer));
    }

    fn answer(&mut self, db: &mut Database, call: &Call) -> Answer {
        match call {
            Call::Begin(priority) => self.begin(*priority),
            Call::Get(key) => {
                let txn = self.txn.as_ref().unwrap();
                let (id, seq, ts) = (txn.id, txn.seq, txn.read_ts);
                match self.wave(db, vec![Box::new(|| Request::Get { id, epoch: 0, seq, ts, key: key.clone() })], Goal::Move(ts.next())) {
                    Ok(steps) => match db.reply(steps[0]) {
                        Reply::Value { value, .. } => Answer::Value(value.clone()),
                        _ => unreachable!(),
                    },
                    Err(holder) => Answer::Blocked(holder),
                }
            }
            Call::Scan(span) => self.scan(db, span),
            Call::Put(key, value) => self.put(db, key, value),
            Call::Commit => self.commit(db),
            Call::Rollback => self.rollback(db),
        }
    }

    fn begin(&mut self, priority: Priority) -> Answer {
        if self.reading > LAST_READING {
            return Answer::Clock(self.reading);
        }
        self.latest = if self.reading > self.latest.wall { Ts { wall: self.reading, logical: 0 } } else { self.latest.next() };
        self.begun += 1;
        let id = Id { session: self.number, number: self.begun };
        let ts = self.latest;
        self.txn = Some(Txn { id, priority, born: self.reading, seq: 0, read_ts: ts, write_ts: ts, anchor: None, locks: BTreeSet::new(), in_flight: None });
        Answer::Begun(id, ts)
    }

    fn scan(&mut self, db: &mut Database, span: &Span) -> Answer {
        let txn = self.txn.as_ref().unwrap();
        let (id, seq, ts) = (txn.id, txn.seq, txn.read_ts);
        let mut pieces = Vec::new();
        let mut from = span.from.clone();
        for split in &db.splits {
            if span.to.as_ref().is_some_and(|to| to <= split) {
                break;
            }
            if from.as_ref().is_none_or(|from| from < split) {
                pieces.push(Span { from, to: Some(split.clone()) });
                from = Some(split.clone());
            }
        }
        pieces.push(Span { from, to: span.to.clone() });
        let made: Vec<Box<dyn Fn() -> Request>> = pieces
            .into_iter()
            .map(|span| Box::new(move || Request::Scan { id, epoch: 0, seq, ts, span: span.clone() }) as Box<dyn Fn() -> Request>)
            .collect();
        match self.wave(db, made, Goal::Move(ts.next())) {
            Ok(steps) => {
                let mut told = Vec::new();
                for step in steps {
                    if let Reply::Rows(rows) = db.reply(step) {
                        told.extend(rows.iter().map(|row| (row.key.clone(), row.value.clone())));
                    }
                }
                Answer::Rows(told)
            }
            Err(holder) => Answer::Blocked(holder),
        }
    }

    fn put(&mut self, db: &mut Database, key: &str, value: &Option<String>) -> Answer {
        if self.txn.as_ref().unwrap().in_flight.is_some()
            && let Err(holder) = self.lay(db)
        {
            return Answer::Blocked(holder);
        }
        let txn = self.txn.as_mut().unwrap();
        txn.seq += 1;
        if !txn.locks.contains(key) {
            txn.locks.insert(key.into());
        }
        txn.anchor.get_or_insert_with(|| key.into());
        txn.in_flight = Some((key.into(), value.clone()));
        match self.lay(db) {
            Ok(()) => Answer::Written,
            Err(holder) => Answer::Blocked(holder),
        }
    }

    /// Sends the write in flight until it is written.
    fn lay(&mut self, db: &mut Database) -> Result<(), Id> {
        let txn = self.txn.as_mut().unwrap();
        let (meta, seq, ts) = (txn.meta(), txn.seq, txn.write_ts);
        let (key, value) = txn.in_flight.clone().unwrap();
        let made = move || Request::Put { meta: meta.clone(), seq, ts, key: key.clone(), value: value.clone() };
        let steps = self.wave(db, vec![Box::new(made)], Goal::Abort)?;
        let txn = self.txn.as_mut().unwrap();
        if let Reply::Written(ts) = db.reply(steps[0]) {
            txn.write_ts = txn.write_ts.max(*ts);
        }
        txn.in_flight = None;
        Ok(())
    }

    fn commit(&mut self, db: &mut Database) -> Answer {
        let txn = self.txn.as_ref().unwrap();
        let (id, begun) = (txn.id, txn.read_ts);
        if txn.anchor.is_none() {
            self.txn = None;
            return Answer::Committed(id, begun);
        }
        for _ in 0..CONFLICTS {
            let txn = self.txn.as_ref().unwrap();
            let request = Request::Commit { meta: txn.meta(), ts: txn.write_ts, locks: txn.locks() };
            let step = self.exchange(db, request);
            match db.reply(step) {
                Reply::Status(View::Committed { epoch, ts, .. }) => {
                    let (epoch, ts) = (*epoch, *ts);
                    self.leave(Fate::Committed { epoch, ts });
                    return Answer::Committed(id, ts);
                }
                Reply::Status(View::Aborted { why, .. }) => {
                    let why = *why;
                    self.leave(Fate::Aborted);
                    return Answer::Aborted(why);
                }
                Reply::Status(View::Pending { ts, .. }) => {
                    let txn = self.txn.as_mut().unwrap();
                    txn.write_ts = txn.write_ts.max(*ts);
                }
                _ => unreachable!(),
            }
        }
        Answer::Moved(self.txn.as_ref().unwrap().write_ts)
    }

    fn rollback(&mut self, db: &mut Database) -> Answer {
        let txn = self.txn.as_ref().unwrap();
        let id = txn.id;
        if txn.anchor.is_none() {
            self.txn = None;
            return Answer::RolledBack(id, Why::Client);
        }
        let request = Request::Abort { meta: txn.meta(), locks: txn.locks() };
        let step = self.exchange(db, request);
        let Reply::Status(View::Aborted { why, .. }) = db.reply(step) else { unreachable!() };
        let why = *why;
        self.leave(Fate::Aborted);
        Answer::RolledBack(id, why)
    }

    fn leave(&mut self, fate: Fate) {
        let txn = self.txn.take().unwrap();
        self.jobs.push_back(Job { id: txn.id, anchor: txn.anchor.unwrap(), fate, locks: txn.locks });
    }

    /// Does the oldest job.
    fn finish(&mut self, db: &mut Database) {
        let Some(job) = self.jobs.pop_front() else {
            return;
        };
        for key in job.locks {
            self.exchange(db, Request::Resolve { id: job.id, key, fate: job.fate });
        }
        self.exchange(db, Request::Remove { id: job.id, anchor: job.anchor });
    }

    fn send(&mut self, db: &mut Database, request: Request) -> usize {
        self.sends += 1;
        let range = db.target(&request);
        db.enter(Actor::Session(self.number), Event::Send(self.sends, range, request))
    }

    fn evaluate(&mut self, db: &mut Database, sent: usize) -> usize {
        let Event::Send(number, range, request) = &db.entries[sent].1 else { unreachable!() };
        let (number, range) = (*number, *range);
        let reply = db.ranges[range as usize].eval(request);
        db.enter(Actor::Range(range), Event::Eval(self.number, number, reply))
    }

    fn hear(&mut self, db: &mut Database, step: usize) {
        let Event::Eval(_, number, reply) = &db.entries[step].1 else { unreachable!() };
        self.latest = self.latest.max(last_stamp(reply));
        let number = *number;
        db.enter(Actor::Session(self.number), Event::Hear(number, step));
    }

    /// A message that is heard at once.
    fn exchange(&mut self, db: &mut Database, request: Request) -> usize {
        let sent = self.send(db, request);
        let step = self.evaluate(db, sent);
        self.hear(db, step);
        step
    }

    /// The messages, and those that met a conflict again after its round, until each has its answer; or who stands in the way.
    fn wave(&mut self, db: &mut Database, made: Vec<Box<dyn Fn() -> Request + '_>>, goal: Goal) -> Result<Vec<usize>, Id> {
        let mut answers = vec![0; made.len()];
        let mut due: Vec<usize> = (0..made.len()).collect();
        for _ in 0..CONFLICTS {
            let sent: Vec<usize> = due.iter().map(|at| self.send(db, made[*at]())).collect();
            let steps: Vec<usize> = sent.into_iter().map(|sent| self.evaluate(db, sent)).collect();
            steps.iter().for_each(|step| self.hear(db, *step));
            let mut met = Vec::new();
            for (at, step) in due.into_iter().zip(steps) {
                match db.reply(step) {
                    Reply::Conflict { holder, key, .. } => met.push((key.clone(), holder.clone(), at)),
                    _ => answers[at] = step,
                }
            }
            if met.is_empty() {
                return Ok(answers);
            }
            met.sort_by(|one, other| one.0.cmp(&other.0));
            for (key, holder, _) in &met {
                self.round(db, key, holder, goal)?;
            }
            due = met.into_iter().map(|met| met.2).collect();
        }
        unreachable!("the eighth conflict of one message: not in these workloads")
    }

    /// Pushes the holder of an intent, and settles the intent as the push came out.
    fn round(&mut self, db: &mut Database, key: &str, holder: &Meta, goal: Goal) -> Result<(), Id> {
        let txn = self.txn.as_ref().unwrap();
        let request = Request::Push { holder: holder.clone(), by: txn.id, level: txn.priority, now: self.reading, goal };
        let step = self.exchange(db, request);
        let fate = match db.reply(step) {
            Reply::Status(View::Committed { epoch, ts, .. }) => Fate::Committed { epoch: *epoch, ts: *ts },
            Reply::Status(View::Aborted { .. }) => Fate::Aborted,
            Reply::Status(View::Pending { ts, .. }) => Fate::Pending(*ts),
            _ => return Err(holder.id),
        };
        self.exchange(db, Request::Resolve { id: holder.id, key: key.into(), fate });
        Ok(())
    }
}

fn last_stamp(reply: &Reply) -> Ts {
    let of = |origin: &Origin| if let Origin::At(ts) = origin { *ts } else { ZERO };
    match reply {
        Reply::Value { origin, .. } => of(origin),
        Reply::Rows(rows) => rows.iter().map(|row| of(&row.origin)).max().unwrap_or(ZERO),
        Reply::Conflict { ts, .. } | Reply::Written(ts) => *ts,
        Reply::Status(view) | Reply::Refused(view) => match view {
            View::Pending { ts, .. } | View::Committed { ts, .. } => *ts,
            View::Nothing | View::Aborted { .. } => ZERO,
        },
        Reply::Resolved | Reply::Removed => ZERO,
    }
}

fn main() {
    let mut text = Vec::new();
    std::io::stdin().read_to_end(&mut text).unwrap();
    let work = input::read(&text);
    let ranges = (0..=work.splits.len()).map(|_| Range::new()).collect();
    let mut db = Database { splits: work.splits, ranges, entries: Vec::new() };
    let mut sessions = work.sessions;
    while sessions[0].place.0 < work.opening || !sessions[0].jobs.is_empty() {
        goes_on_alone(&mut sessions[0], &mut db);
    }
    for (is_job, number) in work.turns {
        let session = &mut sessions[number - 1];
        if is_job { session.finish(&mut db) } else { session.turn(&mut db) }
    }
    for session in &mut sessions {
        while session.next_call().is_some() || !session.jobs.is_empty() {
            goes_on_alone(session, &mut db);
        }
    }
    let out = output::print(&db, sessions.len());
    std::io::stdout().write_all(&out).unwrap();
}

fn goes_on_alone(session: &mut Session, db: &mut Database) {
    if session.jobs.is_empty() { session.turn(db) } else { session.finish(db) }
}
