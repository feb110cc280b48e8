//! Reads a workload.
use crate::{Call, Item, Priority, Session, Span, ZERO};
use std::collections::{BTreeMap, VecDeque};

enum Json {
    Number(u64),
    Text(String),
    Word(#[allow(dead_code)] bool),
    List(Vec<Json>),
    Object(BTreeMap<String, Json>),
}

struct Parser<'a> {
    text: &'a [u8],
    at: usize,
}

impl Parser<'_> {
    fn skip(&mut self) -> u8 {
        while self.text[self.at].is_ascii_whitespace() {
            self.at += 1;
        }
        self.text[self.at]
    }

    fn comes(&mut self, byte: u8) -> bool {
        let is = self.skip() == byte;
        self.at += is as usize;
        is
    }

    fn value(&mut self) -> Json {
        match self.skip() {
            b'{' => self.object(),
            b'[' => self.list(),
            b'"' => Json::Text(self.string()),
            b't' | b'f' => {
                let is = self.text[self.at] == b't';
                self.at += if is { 4 } else { 5 };
                Json::Word(is)
            }
            _ => self.number(),
        }
    }

    fn number(&mut self) -> Json {
        let mut number = 0;
        while self.text[self.at].is_ascii_digit() {
            number = number * 10 + (self.text[self.at] - b'0') as u64;
            self.at += 1;
        }
        Json::Number(number)
    }

    /// Workloads of measurements have no escapes.
    fn string(&mut self) -> String {
        self.at += 1;
        let start = self.at;
        while self.text[self.at] != b'"' {
            self.at += 1;
        }
        self.at += 1;
        String::from_utf8(self.text[start..self.at - 1].to_vec()).unwrap()
    }

    fn list(&mut self) -> Json {
        self.at += 1;
        let mut items = Vec::new();
        while !self.comes(b']') {
            items.push(self.value());
            self.comes(b',');
        }
        Json::List(items)
    }

    fn object(&mut self) -> Json {
        self.at += 1;
        let mut members = BTreeMap::new();
        while !self.comes(b'}') {
            self.skip();
            let name = self.string();
            self.comes(b':');
            let value = self.value();
            members.insert(name, value);
            self.comes(b',');
        }
        Json::Object(members)
    }
}

impl Json {
    fn member(&self, name: &str) -> Option<&Json> {
        match self {
            Json::Object(members) => members.get(name),
            _ => None,
        }
    }

    fn items(&self) -> &[Json] {
        match self {
            Json::List(items) => items,
            _ => &[],
        }
    }

    fn list_of(&self, name: &str) -> &[Json] {
        self.member(name).map_or(&[], Json::items)
    }

    fn text(&self) -> &str {
        match self {
            Json::Text(text) => text,
            _ => "",
        }
    }

    fn whole(&self, name: &str, otherwise: u64) -> u64 {
        match self.member(name) {
            Some(Json::Number(number)) => *number,
            _ => otherwise,
        }
    }
}

pub struct Workload {
    pub splits: Vec<String>,
    pub sessions: Vec<Session>,
    /// Whether a job is done, and the session's number.
    pub turns: Vec<(bool, usize)>,
    pub opening: usize,
}

pub fn read(text: &[u8]) -> Workload {
    let work = Parser { text, at: 0 }.value();
    let reruns = work.whole("reruns", 8) as u32;
    Workload {
        splits: work.list_of("splits").iter().map(|key| key.text().into()).collect(),
        sessions: work.list_of("sessions").iter().enumerate().map(|(index, it)| session(index as u32 + 1, it, reruns)).collect(),
        turns: work.list_of("turns").iter().map(|turn| turn_of(turn.text())).collect(),
        opening: work.whole("opening", 0) as usize,
    }
}

fn turn_of(text: &str) -> (bool, usize) {
    (text.starts_with('b'), text[1..].parse().unwrap())
}

fn session(number: u32, json: &Json, reruns: u32) -> Session {
    let clock = json.member("clock").unwrap();
    Session {
        number,
        clock: (clock.whole("start", 0), clock.whole("step", 0)),
        reads: 0,
        reading: 0,
        items: json.list_of("script").iter().map(item).collect(),
        place: (0, 0),
        again: None,
        reruns,
        most_reruns: reruns,
        latest: ZERO,
        begun: 0,
        sends: 0,
        txn: None,
        jobs: VecDeque::new(),
    }
}

fn item(json: &Json) -> Item {
    let priority = match json.member("priority").map_or("normal", Json::text) {
        "low" => Priority::Low,
        "high" => Priority::High,
        _ => Priority::Normal,
    };
    let mut calls = vec![Call::Begin(priority)];
    calls.extend(json.list_of("do").iter().map(statement));
    calls.push(match json.member("end").map_or("commit", Json::text) {
        "rollback" => Call::Rollback,
        _ => Call::Commit,
    });
    Item { calls }
}

fn statement(json: &Json) -> Call {
    let Json::Object(members) = json else { unreachable!() };
    let (name, value) = members.first_key_value().unwrap();
    match name.as_str() {
        "get" => Call::Get(value.text().into()),
        "delete" => Call::Put(value.text().into(), None),
        "put" => Call::Put(value.items()[0].text().into(), Some(value.items()[1].text().into())),
        _ => {
            let end = |at: usize| Some(value.items()[at].text().to_string()).filter(|end| !end.is_empty());
            Call::Scan(Span { from: end(0), to: end(1) })
        }
    }
}
