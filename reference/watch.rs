//! Runs a cluster by lines and checks after each call what every run promises.

use crate::cluster::{Answer, Call, Cluster, Refusal, Server, Standing, SERVERS};
use crate::images::Entry;
use crate::rules::Sheet;
use crate::table_run::parse;
use crate::{lines, newest};
use std::collections::BTreeSet;
use std::fmt;
use std::io::{self, Write};

/// What happened in a run.
#[derive(Clone, Copy, Default)]
pub struct Counts {
    pub calls: usize,
    pub terms_led: usize,
    pub kept: usize,
    pub gone: usize,
    pub undone: usize,
}

impl Counts {
    pub fn add(&mut self, other: &Counts) {
        self.calls += other.calls;
        self.terms_led += other.terms_led;
        self.kept += other.kept;
        self.gone += other.gone;
        self.undone += other.undone;
    }
}

impl fmt::Display for Counts {
    fn fmt(&self, f: &mut fmt::Formatter) -> fmt::Result {
        let Counts {
            calls,
            terms_led,
            kept,
            gone,
            undone,
        } = self;
        write!(
            f,
            "{calls} calls, {terms_led} terms led, {kept} tickets kept, {gone} tickets gone, \
             {undone} open edits undone"
        )
    }
}

/// The first line after which a promise does not hold.
pub struct Breach {
    line: usize,
    promise: String,
}

impl fmt::Display for Breach {
    fn fmt(&self, f: &mut fmt::Formatter) -> fmt::Result {
        write!(f, "line {}: {}", self.line, self.promise)
    }
}

/// A ticket that was handed out, and what has ever been told of it.
struct Ticket {
    number: usize,
    entry: Entry,
    kept: bool,
    gone: bool,
}

/// Tells the counts of the run, or its first breach; then the answer is false.
pub fn watch(text: &[u8], out: &mut impl Write) -> io::Result<bool> {
    match run(text) {
        Ok(counts) => writeln!(out, "ok {counts}")?,
        Err(breach) => {
            writeln!(out, "{breach}")?;
            return Ok(false);
        }
    }
    Ok(true)
}

pub fn run(text: &[u8]) -> Result<Counts, Breach> {
    let mut cluster = Cluster::opening();
    let mut watcher = Watcher::default();
    for (line, words) in (1..).zip(lines(text)) {
        let Some(call) = parse(words) else {
            continue;
        };
        let checked = watcher.make(&mut cluster, call);
        checked.map_err(|promise| Breach { line, promise })?;
    }
    Ok(watcher.counts())
}

#[derive(Default)]
struct Watcher {
    calls: usize,
    undone: usize,
    led: BTreeSet<u32>,
    tickets: Vec<Ticket>,
}

impl Watcher {
    fn counts(&self) -> Counts {
        Counts {
            calls: self.calls,
            terms_led: self.led.len(),
            kept: self.tickets.iter().filter(|ticket| ticket.kept).count(),
            gone: self.tickets.iter().filter(|ticket| ticket.gone).count(),
            undone: self.undone,
        }
    }

    /// Makes the call and checks every promise, or says which one is broken.
    fn make(&mut self, cluster: &mut Cluster, call: Call) -> Result<(), String> {
        self.calls += 1;
        let before: [usize; SERVERS] = std::array::from_fn(|i| cluster.servers[i].applied);
        let answer = cluster.make(call);
        let (Ok(answer), false) = (
            answer,
            matches!(call, Call::Standing { .. } | Call::Look { .. }),
        ) else {
            return Ok(());
        };
        if !matches!(call, Call::Outage { .. }) {
            for (server, before) in cluster.servers.iter().zip(before) {
                self.undone += before.saturating_sub(server.applied);
            }
        }
        if let (Call::Propose { edit, .. }, Answer::Ticket { number, term }) = (call, answer) {
            self.tickets.push(Ticket {
                number,
                entry: Entry { term, edit },
                kept: false,
                gone: false,
            });
        }
        let leaders = cluster.servers.iter().filter(|server| server.is_leader());
        self.led.extend(leaders.map(|server| server.store.term));
        for (first, second) in [(0, 1), (0, 2), (1, 2)] {
            check_logs(cluster, first, second)?;
            check_same_term(cluster, first, second)?;
        }
        for place in 0..SERVERS {
            check_sheet(&cluster.servers[place], place)?;
        }
        self.check_tickets(cluster)
    }

    fn check_tickets(&mut self, cluster: &Cluster) -> Result<(), String> {
        for i in 0..self.tickets.len() {
            let Ticket {
                number,
                entry,
                kept,
                gone,
            } = self.tickets[i];
            check_close(cluster, number, entry.term)?;
            let told = |standing| {
                (1..=SERVERS as u32)
                    .any(|server| cluster.close(server, number, entry.term) == Ok(standing))
            };
            let (now_kept, now_gone) = (told(Standing::Kept), told(Standing::Gone));
            self.tickets[i].kept |= now_kept;
            self.tickets[i].gone |= now_gone;
            let name = || format!("ticket {number} of term {}", entry.term);
            if self.tickets[i].kept {
                if self.tickets[i].gone {
                    return Err(format!("{} is kept and gone", name()));
                }
                let holds = |server: &&Server| {
                    server.store.durable >= number && server.store.entry(number) == Some(&entry)
                };
                if cluster.servers.iter().filter(holds).count() < 2 {
                    return Err(format!(
                        "{} was kept, but two do not hold it durably",
                        name()
                    ));
                }
            }
            if now_kept && !kept || now_gone && !gone {
                self.check_term(entry.term)?;
            }
        }
        Ok(())
    }

    /// Of the tickets of one term, none that is ever kept has the number of one that is ever
    /// gone, or a larger one.
    fn check_term(&self, term: u32) -> Result<(), String> {
        let of_term = || self.tickets.iter().filter(|t| t.entry.term == term);
        let gone = of_term().filter(|t| t.gone).map(|t| t.number).min();
        let kept = of_term().filter(|t| t.kept).map(|t| t.number).max();
        match (gone, kept) {
            (Some(gone), Some(kept)) if gone <= kept => Err(format!(
                "ticket {gone} of term {term} is gone, but ticket {kept} is kept"
            )),
            _ => Ok(()),
        }
    }
}

/// Closing a ticket is refused where there is no such server, where it is down, and where the
/// standing is neither kept nor gone; otherwise it tells the standing.
fn check_close(cluster: &Cluster, number: usize, term: u32) -> Result<(), String> {
    for named in 0..=SERVERS + 1 {
        let server = named.checked_sub(1).map(|place| cluster.servers.get(place));
        let expected = match server.flatten() {
            None => Err(Refusal::NoSuchServer),
            Some(server) if !server.up => Err(Refusal::ServerDown),
            Some(server) => match server.standing(number, term) {
                Standing::Kept => Ok(Standing::Kept),
                Standing::Gone => Ok(Standing::Gone),
                Standing::Open | Standing::Unknown => Err(Refusal::Undecided),
            },
        };
        if cluster.close(named as u32, number, term) != expected {
            return Err(format!(
                "ticket {number} of term {term} is not closed at server {named} as it stands"
            ));
        }
    }
    Ok(())
}

/// Where two servers hold entry n, the first n entries are equal exactly when the terms at n
/// are equal.
fn check_logs(cluster: &Cluster, first: usize, second: usize) -> Result<(), String> {
    let [a, b] = [first, second].map(|place| &cluster.servers[place].store.entries);
    let mut equal = true;
    for (number, (a, b)) in (1..).zip(a.iter().zip(b)) {
        equal &= a == b;
        if equal != (a.term == b.term) {
            return Err(format!(
                "servers {} and {} hold entry {number} of one term with different logs",
                first + 1,
                second + 1
            ));
        }
    }
    Ok(())
}

/// Of two servers in one term, one's applied edits begin the other's.
fn check_same_term(cluster: &Cluster, first: usize, second: usize) -> Result<(), String> {
    let [a, b] = [first, second].map(|place| &cluster.servers[place]);
    let [applied_a, applied_b] = [a, b].map(|server| server.store.entries.get(..server.applied));
    let (Some(applied_a), Some(applied_b)) = (applied_a, applied_b) else {
        return Err("a server has applied more than it holds".into());
    };
    let alike = applied_a
        .iter()
        .zip(applied_b)
        .all(|(a, b)| a.edit == b.edit);
    if a.store.term == b.store.term && !alike {
        return Err(format!(
            "servers {} and {} are in one term and have applied different edits",
            first + 1,
            second + 1
        ));
    }
    Ok(())
}

/// The newest sheet is the sheet of zeros through the applied edits.
fn check_sheet(server: &Server, place: usize) -> Result<(), String> {
    let mut sheet = Sheet::default();
    for entry in &server.store.entries[..server.applied] {
        sheet.apply(&entry.edit);
    }
    if newest(&server.machine) != sheet {
        return Err(format!(
            "the sheet of server {} does not come from its applied edits",
            place + 1
        ));
    }
    Ok(())
}
