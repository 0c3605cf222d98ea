//! The calls of the store that the engine makes for a workload, on std's BTreeMap and on nothing else.
//!
//!     store_calls NAME COUNT PART
//!
//! The part is `ground`, for what the timed statements stand on, or `script`, for both; behind either the word `made`
//! has the calls made but not done, so that what is left is the work of the map alone. The keys and values have the
//! bytes of docs/FORMATS.md. It prints the calls and the entries that it counted, and the pairs and their bytes.

use std::collections::BTreeMap;
use std::env;
use std::ops::Bound::{Excluded, Included};

/// How many calls are made before they are done.
const CHUNK: usize = 4096;

enum Call {
    Get(Vec<u8>),
    Range(Vec<u8>, Vec<u8>, usize),
    Count(Vec<u8>, Vec<u8>, usize),
    Put(Vec<u8>, Vec<u8>),
    PutAbsent(Vec<u8>, Vec<u8>),
    Remove(Vec<u8>),
}

struct Calls {
    map: BTreeMap<Vec<u8>, Vec<u8>>,
    waiting: Vec<Call>,
    /// Whether the calls are done.
    are_done: bool,
    calls: u64,
    entries: u64,
}

impl Calls {
    fn call(&mut self, call: Call) {
        self.waiting.push(call);
        if self.waiting.len() == CHUNK {
            self.flush();
        }
    }

    fn flush(&mut self) {
        let mut waiting = std::mem::take(&mut self.waiting);
        if self.are_done {
            for call in waiting.drain(..) {
                self.calls += 1;
                self.entries += self.done(call);
            }
        } else {
            waiting.clear();
        }
        self.waiting = waiting;
    }

    /// Does a call; how many entries it answers or counts.
    fn done(&mut self, call: Call) -> u64 {
        match call {
            Call::Get(key) => self.map.get(key.as_slice()).cloned().is_some() as u64,
            Call::Range(low, high, limit) => {
                let bounds = (Included(low.as_slice()), Excluded(high.as_slice()));
                let found = self.map.range::<[u8], _>(bounds).take(limit);
                let answer: Vec<_> = found.map(|(key, value)| (key.clone(), value.clone())).collect();
                answer.len() as u64
            }
            Call::Count(low, high, cap) => {
                let bounds = (Included(low.as_slice()), Excluded(high.as_slice()));
                self.map.range::<[u8], _>(bounds).take(cap).count() as u64
            }
            Call::Put(key, value) => {
                self.map.insert(key, value);
                0
            }
            Call::PutAbsent(key, value) => {
                if self.map.get(key.as_slice()).is_none() {
                    self.map.insert(key, value);
                }
                0
            }
            Call::Remove(key) => {
                self.map.remove(key.as_slice());
                0
            }
        }
    }

    fn open(&mut self) {
        self.call(Call::Get(vec![4]));
        self.call(Call::Range(vec![1], vec![2], 257));
    }

    /// A definition is one write.
    fn define(&mut self, number: u8, text: &str) {
        let value = [&[1, 0], text.as_bytes()].concat();
        self.call(Call::PutAbsent(vec![1, 0, number], value));
    }

    /// The definition of a query that makes an index over no rows.
    fn build(&mut self, number: u8, text: &str, table: u8) {
        let marked = [&[1, 1], text.as_bytes()].concat();
        let ready = [&[1, 0], text.as_bytes()].concat();
        self.call(Call::Count(vec![2, table], vec![2, table + 1], 1_000_001));
        self.call(Call::PutAbsent(vec![1, 0, number], marked));
        self.call(Call::Range(vec![2, table], vec![2, table + 1], 256));
        self.call(Call::Put(vec![1, 0, number], ready));
    }

    /// Looks for the row of a key.
    fn look(&mut self, key: &[u8]) {
        self.call(Call::Get(key.to_vec()));
    }

    fn count_group(&mut self, prefix: &[u8], limit: usize) {
        self.call(Call::Count(prefix.to_vec(), past(prefix), limit));
    }

    /// Makes the changes of a write: its row, and then its entries. Several stand in an intent before they are made.
    fn write(&mut self, key: Vec<u8>, row: Vec<u8>, entries: Vec<Vec<u8>>) {
        let mut changes = vec![(key, row)];
        changes.extend(entries.into_iter().map(|entry| (entry, Vec::new())));
        let many = changes.len() > 1;
        if many {
            let mut intent = (changes.len() as u16).to_be_bytes().to_vec();
            for (key, value) in &changes {
                intent.extend((key.len() as u32).to_be_bytes());
                intent.extend(key);
                intent.push(1);
                intent.extend((value.len() as u32).to_be_bytes());
                intent.extend(value);
            }
            self.call(Call::PutAbsent(vec![4], intent));
        }
        for (key, value) in changes {
            self.call(Call::Put(key, value));
        }
        if many {
            self.call(Call::Remove(vec![4]));
        }
    }
}

/// Above every key that goes on from this one by a code.
fn past(prefix: &[u8]) -> Vec<u8> {
    [prefix, &[0x20]].concat()
}

enum Cell<'a> {
    Int(i64),
    Below(i64),
    Bool(bool),
    Text(&'a str),
}
use Cell::{Below, Bool, Int, Text};

/// The key code of values behind some bytes; `Below` is a number that descends.
fn coded(space: &[u8], cells: &[Cell]) -> Vec<u8> {
    let mut key = space.to_vec();
    for cell in cells {
        key.push(0x10);
        match cell {
            Int(number) => key.extend((number ^ i64::MIN).to_be_bytes()),
            Below(number) => key.extend((!(number ^ i64::MIN)).to_be_bytes()),
            Bool(truth) => key.push(*truth as u8),
            Text(text) => {
                key.extend(text.as_bytes());
                key.extend([0, 1]);
            }
        }
    }
    key
}

fn row(cells: &[Cell]) -> Vec<u8> {
    let mut code = vec![cells.len() as u8];
    for cell in cells {
        match cell {
            Int(number) | Below(number) => code.extend(number.to_be_bytes()),
            Bool(truth) => code.push(*truth as u8),
            Text(text) => {
                code.extend((text.len() as u16).to_be_bytes());
                code.extend(text.as_bytes());
            }
        }
    }
    code
}

fn scattered(number: i64, factor: i64) -> i64 {
    number * factor % 100_003
}

fn inserts(calls: &mut Calls, count: i64, script: bool) {
    let parents = (count / 20).max(1);
    let user = |number: i64| format!("user{number:05}");
    calls.define(1, "CREATE TABLE users (name TEXT(20), PRIMARY KEY (name));");
    calls.define(2, "CREATE TABLE subs (owner TEXT(20), target TEXT(20), since INT, PRIMARY KEY (owner, target, since), CARDINALITY LIMIT 100 (owner), CARDINALITY LIMIT 100 (target), FOREIGN KEY (target) REFERENCES users);");
    for parent in 0..parents {
        let name = user(parent);
        let key = coded(&[2, 1], &[Text(&name)]);
        calls.look(&key);
        calls.write(key, row(&[Text(&name)]), vec![]);
    }
    if !script {
        return;
    }
    for parent in 0..parents {
        for other in 0..count / parents {
            let (owner, target) = (user(parent), user((parent * 31 + other * 17) % parents));
            let key = coded(&[2, 2], &[Text(&owner), Text(&target), Int(other)]);
            calls.look(&key);
            calls.look(&coded(&[2, 1], &[Text(&target)]));
            calls.count_group(&coded(&[2, 2], &[Text(&owner)]), 100);
            calls.count_group(&coded(&[3, 2, 1], &[Text(&target)]), 100);
            let entry = coded(&[3, 2, 1], &[Text(&target), Text(&owner), Int(other)]);
            calls.write(key, row(&[Text(&owner), Text(&target), Int(other)]), vec![entry]);
        }
    }
}

fn indexes(calls: &mut Calls, count: i64, script: bool) {
    calls.define(1, "CREATE TABLE t (id INT, a INT, b INT, PRIMARY KEY (id), CARDINALITY LIMIT 1000 (a), CARDINALITY LIMIT 1000 (b));");
    for id in 0..if script { count } else { 0 } {
        let (a, b) = (scattered(id, 7_919), scattered(id, 104_729));
        let key = coded(&[2, 1], &[Int(id)]);
        calls.look(&key);
        calls.count_group(&coded(&[3, 1, 1], &[Int(a)]), 1000);
        calls.count_group(&coded(&[3, 1, 2], &[Int(b)]), 1000);
        let entries = vec![coded(&[3, 1, 1], &[Int(a), Int(id)]), coded(&[3, 1, 2], &[Int(b), Int(id)])];
        calls.write(key, row(&[Int(id), Int(a), Int(b)]), entries);
    }
}

fn runs(calls: &mut Calls, count: i64, script: bool) {
    calls.define(1, "CREATE TABLE m (id INT, v INT, PRIMARY KEY (id));");
    calls.define(2, "PREPARE q AS SELECT x.v FROM m AS x WHERE x.id = [1];");
    for id in 0..count {
        let key = coded(&[2, 1], &[Int(id)]);
        calls.look(&key);
        calls.write(key, row(&[Int(id), Int(scattered(id, 7_919))]), vec![]);
    }
    for id in 0..if script { count } else { 0 } {
        calls.look(&coded(&[2, 1], &[Int(scattered(id, 7_919) % count)]));
    }
}

/// The row of 28 columns: its key, and behind it numbers and texts in turns.
fn wide_row(group: i64, id: i64) -> Vec<u8> {
    let number = group * 60 + id;
    let texts: Vec<String> = (0..13).map(|at| format!("text {number} of {at:02}")).collect();
    let mut cells = vec![Int(group), Int(id)];
    for (at, text) in texts.iter().enumerate() {
        cells.push(Int(scattered(number + at as i64, 7_919)));
        cells.push(Text(text));
    }
    row(&cells)
}

fn wide(calls: &mut Calls, count: i64, script: bool) {
    let groups = (count / 20).max(1);
    let columns: Vec<String> = (0..13).map(|at| format!("n{at:02} INT, t{at:02} TEXT(20)")).collect();
    let columns = columns.join(", ");
    calls.define(1, &format!("CREATE TABLE wide (grp INT, id INT, {columns}, PRIMARY KEY (grp, id));"));
    calls.define(2, "PREPARE page AS SELECT x.id, x.n06, x.t01, x.t12 FROM wide AS x WHERE x.grp = [1] ORDER BY x.id LIMIT 50;");
    for group in 0..groups {
        for id in 0..60 {
            let key = coded(&[2, 1], &[Int(group), Int(id)]);
            calls.look(&key);
            calls.write(key, wide_row(group, id), vec![]);
        }
    }
    for number in 0..if script { count } else { 0 } {
        let prefix = coded(&[2, 1], &[Int(number % groups)]);
        calls.call(Call::Range(prefix.clone(), past(&prefix), 50));
    }
}

fn name(user: i64) -> String {
    format!("u{user:05}")
}

fn site(calls: &mut Calls) {
    calls.define(1, "CREATE TABLE users (name TEXT(16), city TEXT(16), PRIMARY KEY (name));");
    calls.define(2, "CREATE TABLE subs (owner TEXT(16), target TEXT(16), approved BOOL, PRIMARY KEY (owner, target), CARDINALITY LIMIT 100 (owner), FOREIGN KEY (owner) REFERENCES users, FOREIGN KEY (target) REFERENCES users);");
    calls.define(3, "CREATE TABLE thoughts (owner TEXT(16), ts INT, body TEXT(140), PRIMARY KEY (owner, ts), FOREIGN KEY (owner) REFERENCES users);");
    calls.build(4, "PREPARE home AS SELECT t.owner, t.ts, t.body FROM subs AS s, thoughts AS t WHERE s.owner = [1] AND s.approved = true AND t.owner = s.target ORDER BY t.ts DESC LIMIT 10;", 3);
}

fn site_rows(calls: &mut Calls, users: i64) {
    for user in 0..users {
        let (name, city) = (name(user), format!("c{}", user % 10));
        let key = coded(&[2, 1], &[Text(&name)]);
        calls.look(&key);
        calls.write(key, row(&[Text(&name), Text(&city)]), vec![]);
    }
    for user in 0..users {
        for other in 1..=5.min(users - 1) {
            let (owner, target) = (name(user), name((user + other) % users));
            let key = coded(&[2, 2], &[Text(&owner), Text(&target)]);
            calls.look(&key);
            calls.look(&coded(&[2, 1], &[Text(&owner)]));
            calls.look(&coded(&[2, 1], &[Text(&target)]));
            calls.count_group(&coded(&[2, 2], &[Text(&owner)]), 100);
            let entry = coded(&[3, 2, 1], &[Text(&target), Text(&owner)]);
            calls.write(key, row(&[Text(&owner), Text(&target), Bool(other != 3)]), vec![entry]);
        }
    }
    for turn in 0..5 {
        for user in 0..users {
            let (owner, ts) = (name(user), turn * users + user);
            let key = coded(&[2, 3], &[Text(&owner), Int(ts)]);
            calls.look(&key);
            calls.look(&coded(&[2, 1], &[Text(&owner)]));
            let entry = coded(&[3, 3, 1], &[Text(&owner), Below(ts)]);
            calls.write(key, row(&[Text(&owner), Int(ts), Text("b")]), vec![entry]);
        }
    }
}

/// The page of a user: whom they follow, ten entries of each of these at most, and the ten latest rows.
fn site_run(calls: &mut Calls, users: i64, user: i64) {
    let prefix = coded(&[2, 2], &[Text(&name(user))]);
    calls.call(Call::Range(prefix.clone(), past(&prefix), 100));
    let others = (1..=5.min(users - 1)).filter(|other| *other != 3);
    let mut targets: Vec<i64> = others.map(|other| (user + other) % users).collect();
    targets.sort();
    let mut found = Vec::new();
    for target in targets {
        let prefix = coded(&[3, 3, 1], &[Text(&name(target))]);
        calls.call(Call::Range(prefix.clone(), past(&prefix), 10));
        found.extend((0..5).map(|turn| (turn * users + target, target)));
    }
    found.sort();
    for (ts, owner) in found.into_iter().rev().take(10) {
        calls.look(&coded(&[2, 3], &[Text(&name(owner)), Int(ts)]));
    }
}

fn main() {
    let words: Vec<String> = env::args().skip(1).collect();
    let words: Vec<&str> = words.iter().map(String::as_str).collect();
    let (workload, count, part) = (words[0], words[1].parse::<i64>().unwrap(), words[2]);
    let mut calls = Calls {
        map: BTreeMap::new(),
        waiting: Vec::with_capacity(CHUNK),
        are_done: words.get(3) != Some(&"made"),
        calls: 0,
        entries: 0,
    };
    let script = part == "script";
    calls.open();
    match workload {
        "inserts" => inserts(&mut calls, count, script),
        "indexes" => indexes(&mut calls, count, script),
        "runs" => runs(&mut calls, count, script),
        "wide" => wide(&mut calls, count, script),
        "fill" | "feed" => {
            site(&mut calls);
            if script || workload == "feed" {
                site_rows(&mut calls, count);
            }
            for user in 0..if script { count } else { 0 } {
                site_run(&mut calls, count, user);
            }
        }
        _ => panic!("{workload} is no workload"),
    }
    calls.flush();
    let bytes: usize = calls.map.iter().map(|(key, value)| key.len() + value.len()).sum();
    println!("{} {} {} {}", calls.calls, calls.entries, calls.map.len(), bytes);
}
