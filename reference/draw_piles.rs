//! Draws lists of calls for piles. In the first part of a list every outage has the wish 0, so
//! that all piles answer alike; in the second they may keep different entries. Scenes stand
//! between stretches of calls that are drawn as for table-run, so that no list lacks them.

use crate::cluster::{Call, Server, MAX_MESSAGES, SERVERS};
use crate::draw_calls::{number, write_call, Drawer};
use crate::images::MAX_ENTRIES;
use crate::newest;
use crate::rules::{Edit, MAX_OPEN};
use std::io::{self, Write};

/// How many lines a list has, more or less.
const LINES: u64 = 1_500;

/// Outages of a leader: how many volatile entries it has, the wish, and whether it leads again
/// afterwards or another takes over.
const OUTAGES: [(usize, u32, bool); 8] = [
    (20, 3, false),
    (9, 8, true),
    (9, 9, false),
    (6, 4, false),
    (17, u32::MAX, false),
    (1, 1, true),
    (12, 10, false),
    (8, 8, true),
];

pub fn draw(seed: u64, out: &mut impl Write) -> io::Result<()> {
    let drawer = Drawer::opening(seed, LINES);
    let mut list = List { drawer, out };
    list.drawer.wishless = true;
    list.stretch(100, 8)?;
    list.refused()?;
    list.catch_up()?;
    list.sixteen()?;
    list.stretch(120, 14)?;
    list.crowd()?;
    list.stretch(120, 20)?;
    list.full_log(true)?;
    list.stretch(80, 24)?;
    list.full_log(false)?;
    list.drawer.wishless = false;
    for (volatile, wish, again) in OUTAGES {
        list.outage(volatile, wish, again)?;
        list.stretch(24, 30)?;
    }
    Ok(())
}

/// The places of the other two servers.
fn others(place: usize) -> [usize; 2] {
    [(place + 1) % SERVERS, (place + 2) % SERVERS]
}

struct List<'a, W> {
    drawer: Drawer,
    out: &'a mut W,
}

impl<W: Write> List<'_, W> {
    /// Writes the call and makes it. Tells whether it is not refused.
    fn say(&mut self, call: Call) -> io::Result<bool> {
        write_call(call, self.out)?;
        writeln!(self.out)?;
        Ok(self.drawer.make(call).is_ok())
    }

    /// So many lines as drawn for table-run, with logs of at most so many entries, mostly.
    fn stretch(&mut self, count: u64, pace: usize) -> io::Result<()> {
        self.drawer.pace = pace;
        let mut line = Vec::new();
        for _ in 0..count {
            line.clear();
            self.drawer.draw_line(&mut line)?;
            line.push(b'\n');
            self.out.write_all(&line)?;
        }
        Ok(())
    }

    fn server(&self, place: usize) -> &Server {
        &self.drawer.cluster.servers[place]
    }

    // ---- what scenes are made of ----

    /// Delivers every message, in order. All servers must be up.
    fn drain(&mut self) -> io::Result<()> {
        while !self.drawer.cluster.network.is_empty() {
            let (position, keep) = (1, 0);
            self.say(Call::Deliver { position, keep })?;
        }
        Ok(())
    }

    /// Makes the server whose log has come farthest the leader of the highest term, or the
    /// better one of two where one is left out. All servers are up then, and no messages are
    /// left.
    fn elect(&mut self, out: Option<usize>) -> io::Result<usize> {
        for place in 0..SERVERS {
            if !self.server(place).up {
                let server = number(place);
                self.say(Call::Restart { server })?;
            }
        }
        self.drain()?;
        let leader = (0..SERVERS)
            .filter(|&place| Some(place) != out)
            .max_by_key(|&place| self.server(place).store.pair())
            .expect("a server that is not left out");
        // A leader that is behind in its term learns so by the reply.
        for other in others(leader) {
            let behind = self.server(leader).store.term < self.server(other).store.term;
            if self.server(leader).is_leader() && behind {
                self.send(leader, other)?;
            }
        }
        while !self.server(leader).is_leader() {
            let server = number(leader);
            self.say(Call::Campaign { server })?;
            self.drain()?;
        }
        Ok(leader)
    }

    fn propose(&mut self, leader: usize) -> io::Result<bool> {
        let call = self.drawer.propose_past_pace(leader);
        self.say(call)
    }

    fn send(&mut self, leader: usize, receiver: usize) -> io::Result<()> {
        self.say(Call::Send {
            server: number(leader),
            receiver: number(receiver),
        })?;
        self.drain()
    }

    /// The leader proposes an edit, and sends to the longer one of the other logs until the
    /// edit is committed.
    fn agree(&mut self, leader: usize) -> io::Result<()> {
        let [first, second] = others(leader);
        let len = |place| self.server(place).store.len();
        let receiver = if len(first) < len(second) {
            second
        } else {
            first
        };
        if !self.propose(leader)? {
            return Ok(());
        }
        let server = number(leader);
        self.say(Call::Firm { server })?;
        while self.server(leader).commit < self.server(leader).store.len() {
            self.send(leader, receiver)?;
        }
        Ok(())
    }

    /// Applies so many times, or until that is refused.
    fn apply(&mut self, place: usize, times: usize) -> io::Result<()> {
        let server = number(place);
        for _ in 0..times {
            if !self.say(Call::Apply { server })? {
                break;
            }
        }
        Ok(())
    }

    /// Another server leads, and its next entry replaces what the old leader held there.
    fn take_over(&mut self, old: usize) -> io::Result<()> {
        let new = self.elect(Some(old))?;
        self.ask(old)?;
        self.agree(new)?;
        for place in [old, new] {
            self.apply(place, 6)?;
            self.ask(place)?;
        }
        Ok(())
    }

    /// Asks the server for cells that are not 0, if there are any, and for the standings of
    /// late tickets.
    fn ask(&mut self, place: usize) -> io::Result<()> {
        for _ in 0..2 {
            let sheet = newest(&self.server(place).machine);
            let cells = (1..).zip(sheet.rows).flat_map(|(row, cells)| {
                let written = (1..).zip(cells).filter(|&(_, cell)| cell != 0);
                written.map(move |(size, _)| (row, size))
            });
            let cells: Vec<(u32, u32)> = cells.collect();
            let server = number(place);
            let call = match cells[..] {
                [] => self.drawer.look_at(place),
                _ => {
                    let (row, size) = self.drawer.rng.pick(&cells);
                    Call::Look { server, row, size }
                }
            };
            self.say(call)?;
            let tickets = &self.drawer.tickets;
            let late = tickets.len().saturating_sub(MAX_OPEN);
            let (ticket, term) = self.drawer.rng.pick(&tickets[late..]);
            self.say(Call::Standing {
                server,
                number: ticket as u32,
                term,
            })?;
        }
        Ok(())
    }

    // ---- scenes ----

    /// The refusals that need no more than a leader and a server that is down.
    fn refused(&mut self) -> io::Result<()> {
        let leader = self.elect(None)?;
        let [other, down] = others(leader).map(number);
        let leader = number(leader);
        let (server, receiver) = (leader, down);
        self.say(Call::Send { server, receiver })?;
        let (server, wish) = (down, 0);
        self.say(Call::Outage { server, wish })?;
        let named = [0, SERVERS as u32 + 1, down];
        let calls = named.into_iter().flat_map(calls_of);
        for call in calls.chain(calls_in_vain(leader, other)) {
            self.say(call)?;
        }
        self.say(Call::Restart { server: down })?;
        Ok(())
    }

    /// All servers come to hold and to apply the same.
    fn catch_up(&mut self) -> io::Result<()> {
        let leader = self.elect(None)?;
        self.agree(leader)?;
        for other in others(leader) {
            while self.server(other).commit < self.server(leader).commit {
                self.send(leader, other)?;
            }
        }
        for place in 0..SERVERS {
            self.apply(place, MAX_ENTRIES)?;
        }
        for place in 0..SERVERS {
            self.ask(place)?;
        }
        Ok(())
    }

    /// A leader applies openly as long as it may. Then another takes over, and all is undone.
    fn sixteen(&mut self) -> io::Result<()> {
        let leader = self.elect(None)?;
        self.agree(leader)?;
        for _ in 0..MAX_OPEN + 2 {
            self.propose(leader)?;
        }
        self.apply(leader, MAX_ENTRIES)?;
        self.ask(leader)?;
        self.take_over(leader)
    }

    /// A leader fills the network up, and then messages of every kind are lost.
    fn crowd(&mut self) -> io::Result<()> {
        let leader = self.elect(None)?;
        let [first, second] = others(leader).map(number);
        let server = number(leader);
        self.propose(leader)?;
        while self.drawer.cluster.network.len() + 1 < MAX_MESSAGES {
            let receiver = self.drawer.rng.pick(&[first, second]);
            self.say(Call::Send { server, receiver })?;
        }
        for server in [first, second] {
            self.say(Call::Campaign { server })?;
        }
        let receiver = first;
        self.say(Call::Send { server, receiver })?;
        for (position, keep) in [(2, 1), (1, 0), (MAX_MESSAGES as u32, 1)] {
            self.say(Call::Deliver { position, keep })?;
        }
        Ok(())
    }

    /// A leader fills its log up. Then another takes over and cuts it, or an outage does.
    fn full_log(&mut self, by_another: bool) -> io::Result<()> {
        let leader = self.elect(None)?;
        let server = number(leader);
        self.agree(leader)?;
        while self.propose(leader)? {}
        self.apply(leader, 4)?;
        self.ask(leader)?;
        if by_another {
            return self.take_over(leader);
        }
        self.say(Call::Outage { server, wish: 0 })?;
        self.say(Call::Restart { server })?;
        self.ask(leader)
    }

    /// A leader with so many volatile entries goes down and comes back.
    fn outage(&mut self, volatile: usize, wish: u32, again: bool) -> io::Result<()> {
        let leader = self.elect(None)?;
        let server = number(leader);
        self.agree(leader)?;
        for _ in 0..volatile {
            self.propose(leader)?;
        }
        self.apply(leader, 2)?;
        self.say(Call::Outage { server, wish })?;
        self.say(Call::Restart { server })?;
        self.ask(leader)?;
        if !again {
            return self.take_over(leader);
        }
        self.say(Call::Campaign { server })?;
        self.drain()?;
        self.propose(leader)?;
        self.ask(leader)
    }
}

/// The calls that name a server, but for restart.
fn calls_of(server: u32) -> [Call; 8] {
    let edit = Edit::default();
    let (number, term) = (1, 1);
    let (row, size) = (1, 1);
    [
        Call::Campaign { server },
        Call::Propose { server, edit },
        Call::Firm { server },
        Call::Send {
            server,
            receiver: 1,
        },
        Call::Apply { server },
        Call::Outage { server, wish: 0 },
        Call::Standing {
            server,
            number,
            term,
        },
        Call::Look { server, row, size },
    ]
}

/// Calls that are refused where one server leads, another follows it and the third is down.
fn calls_in_vain(leader: u32, other: u32) -> impl Iterator<Item = Call> {
    let send = |server, receiver| Call::Send { server, receiver };
    let edit = Edit::default();
    let at_servers = [
        Call::Campaign { server: leader },
        Call::Propose {
            server: other,
            edit,
        },
        send(other, leader),
        send(leader, leader),
        send(leader, 0),
        Call::Restart { server: leader },
        Call::Restart { server: 4 },
    ];
    let cells = [(0, 1), (9, 1), (1, 0), (8, 13), (1 << 31, 1), (1, u32::MAX)];
    let server = other;
    let looks = cells.map(|(row, size)| Call::Look { server, row, size });
    let (last, keep) = (MAX_MESSAGES as u32, 0);
    let losses = [0, last + 1].map(|position| Call::Lose { position });
    let deliveries = [0, 1, last].map(|position| Call::Deliver { position, keep });
    at_servers
        .into_iter()
        .chain(looks)
        .chain(losses)
        .chain(deliveries)
}
