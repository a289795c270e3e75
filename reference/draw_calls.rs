//! Draws lists of calls for table-run. A cluster of its own runs along, so that most calls
//! make sense where they stand.

use crate::cluster::{Answer, Call, Cluster, Refusal, Server, Standing, MAX_MESSAGES, SERVERS};
use crate::draw::{draw_edit, Rng};
use crate::images::MAX_ENTRIES;
use crate::newest;
use crate::rules::Edit;
use crate::table_run::parse;
use std::io::{self, Write};

/// What the next calls are about. Servers are named by their places.
#[derive(Clone, Copy)]
enum Phase {
    /// All servers reach each other, and one leads.
    Quiet,
    /// Nothing passes between one server and the other two.
    Split { cut: usize },
    /// A leader proposes and applies, and hardly sends.
    Burst { leader: usize },
    /// Anything may happen.
    Storm,
}

/// In a list of so many calls, or fewer, faults come as often as they can.
const TROUBLED: u64 = 3_000;

pub struct Drawer {
    /// The lines of the list.
    count: u64,
    pub rng: Rng,
    pub cluster: Cluster,
    /// Number and term of every ticket handed out.
    pub tickets: Vec<(usize, u32)>,
    phase: Phase,
    /// The calls left in the phase.
    left: u64,
    /// Calls to make before any other, the next one last.
    planned: Vec<Call>,
    /// Whether quiet phases are long and many.
    calm: bool,
    /// Whether logs may be full early.
    hasty: bool,
    /// Whether every outage has the wish 0.
    pub wishless: bool,
    /// How many entries a log should have by now at most, so that it is not full too early.
    pub pace: usize,
    /// How many entries of a leader should wait for a commit at most.
    appetite: usize,
}

pub fn draw(seed: u64, count: u64, out: &mut impl Write) -> io::Result<()> {
    let mut drawer = Drawer::opening(seed, count);
    let mut line = Vec::new();
    for drawn in 0..count {
        if !drawer.hasty {
            drawer.pace = 6 + (58 * drawn / count) as usize;
        }
        line.clear();
        drawer.draw_line(&mut line)?;
        out.write_all(&line)?;
        // Now and then the last line has no line feed.
        if drawn + 1 < count || drawer.rng.chance(90) {
            writeln!(out)?;
        }
    }
    Ok(())
}

/// The number of the server at a place.
pub fn number(place: usize) -> u32 {
    place as u32 + 1
}

impl Drawer {
    /// For a list of so many lines.
    pub fn opening(seed: u64, count: u64) -> Self {
        let mut rng = Rng::new(seed);
        let (calm, hasty) = (rng.chance(50), rng.chance(20));
        Drawer {
            count,
            rng,
            cluster: Cluster::opening(),
            tickets: Vec::new(),
            phase: Phase::Quiet,
            left: 30,
            planned: Vec::new(),
            calm,
            hasty,
            wishless: false,
            pace: MAX_ENTRIES,
            appetite: 2,
        }
    }

    pub fn draw_line(&mut self, line: &mut Vec<u8>) -> io::Result<()> {
        let odd = self.rng.below(1_000);
        if odd < 4 {
            line.extend_from_slice(self.rng.pick(&NO_CALLS));
        } else {
            let call = if odd < 14 {
                self.out_of_range()
            } else {
                self.draw_call()
            };
            write_call(call, line)?;
            let wished = matches!(call, Call::Outage { .. }) && self.wishless;
            if odd >= 985 && !wished {
                self.garble(line);
            }
        }
        // The line may have become another call or none.
        if let Some(call) = parse(line) {
            // A refusal is an answer like any other.
            let _ = self.make(call);
        }
        Ok(())
    }

    /// Makes the call on the cluster that runs along.
    pub fn make(&mut self, call: Call) -> Result<Answer, Refusal> {
        let answer = self.cluster.make(call);
        if let Ok(Answer::Ticket { number, term }) = answer {
            self.tickets.push((number, term));
        }
        answer
    }

    fn draw_call(&mut self) -> Call {
        if let Some(call) = self.planned.pop() {
            return call;
        }
        if self.left == 0 {
            self.open_phase();
            return self.draw_call();
        }
        self.left -= 1;
        match self.rng.below(100) {
            0..=4 => return self.ask_standing(),
            5..=6 => return self.look(),
            _ => {}
        }
        match self.phase {
            Phase::Quiet => self.quiet(),
            Phase::Split { cut } => self.split(cut),
            Phase::Burst { leader } => self.burst(leader),
            Phase::Storm => self.storm(),
        }
    }

    // ---- phases ----

    fn open_phase(&mut self) {
        let leader = self.leader(None);
        let (phase, longest) = match (self.phase, leader) {
            (Phase::Burst { leader }, _) if self.rng.chance(75) => {
                (Phase::Split { cut: leader }, 40)
            }
            _ if !self.trouble() => (Phase::Quiet, 200),
            _ => match (self.rng.below(100), leader) {
                _ if self.calm && self.rng.chance(40) => (Phase::Quiet, 200),
                (0..=27, _) => (Phase::Quiet, 70),
                (28..=44, Some(leader)) => {
                    let longest = if self.hasty { 180 } else { 55 };
                    (Phase::Burst { leader }, longest)
                }
                (28..=72, Some(leader)) if self.rng.chance(60) => {
                    (Phase::Split { cut: leader }, 40)
                }
                (28..=87, _) => {
                    let cut = self.any_place();
                    (Phase::Split { cut }, 40)
                }
                _ => (Phase::Storm, 35),
            },
        };
        self.phase = phase;
        self.left = 6 + self.rng.below(longest);
        self.appetite = match self.rng.pick(&[1, 2, 3, 5, 9]) {
            9 if self.hasty => MAX_ENTRIES,
            most => most,
        };
        if let Phase::Split { cut } = phase {
            self.plan_split(cut);
        }
    }

    /// Often one of the two that still reach each other campaigns at once, and before that
    /// one of them may go down and come back.
    fn plan_split(&mut self, cut: usize) {
        let first = (cut + 1) % SERVERS;
        let second = (cut + 2) % SERVERS;
        let (one, other) = if self.rng.chance(50) {
            (first, second)
        } else {
            (second, first)
        };
        if self.rng.chance(60) {
            let server = number(one);
            self.planned.push(Call::Campaign { server });
        }
        if self.rng.chance(25) {
            let server = number(if self.rng.chance(65) { other } else { one });
            self.planned.push(Call::Restart { server });
            let wish = self.wish();
            self.planned.push(Call::Outage { server, wish });
        }
    }

    fn quiet(&mut self) -> Call {
        if self.rng.below(200) == 0 {
            let place = self.any_place();
            if self.leader(None) != Some(place) || self.trouble() {
                return self.outage(place);
            }
        }
        self.progress(None)
    }

    /// Whether a fault that may cost the leader its place is due. A log is full for good after
    /// 64 commits, and each new leader needs one, so in long lists they are rare.
    fn trouble(&mut self) -> bool {
        self.rng.below(self.count.max(TROUBLED)) < TROUBLED
    }

    /// The cut server goes on alone, the others together.
    fn split(&mut self, cut: usize) -> Call {
        let server = number(cut);
        let cut_server = &self.cluster.servers[cut];
        let share = if cut_server.is_leader() { 35 } else { 20 };
        if !self.rng.chance(share) {
            return self.progress(Some(cut));
        }
        if !cut_server.up {
            return if self.rng.chance(30) {
                Call::Restart { server }
            } else {
                self.progress(Some(cut))
            };
        }
        let leads = cut_server.is_leader();
        match self.rng.below(100) {
            0..=4 => self.outage(cut),
            5..=11 => self.lose_message_of(cut),
            12..=41 if leads => self.propose(cut),
            12..=15 => Call::Campaign { server },
            42..=69 if cut_server.may_apply().is_ok() || self.rng.chance(10) => {
                Call::Apply { server }
            }
            70..=74 => Call::Firm { server },
            80..=89 if leads => self.send(cut),
            _ => self.progress(Some(cut)),
        }
    }

    fn burst(&mut self, leader: usize) -> Call {
        let server = number(leader);
        let state = &self.cluster.servers[leader];
        let own_term_at_commit = state.standing(state.commit, state.store.term) == Standing::Kept;
        if !state.is_leader() || !own_term_at_commit {
            return self.progress(None);
        }
        match self.rng.below(1_000) {
            0..=479 => self.propose_past_pace(leader),
            480..=909 => Call::Apply { server },
            910..=919 => Call::Firm { server },
            920..=934 => self.outage(leader),
            935..=949 => self.send(leader),
            _ => self.progress(None),
        }
    }

    fn storm(&mut self) -> Call {
        let place = self.any_place();
        let server = number(place);
        let leader = self.any_leader().unwrap_or(place);
        match self.rng.below(100) {
            0..=7 => Call::Campaign { server },
            8..=39 => {
                let position = self.any_position();
                let keep = u32::from(self.rng.chance(25));
                Call::Deliver { position, keep }
            }
            40..=44 => {
                let position = self.any_position();
                Call::Lose { position }
            }
            45..=55 => self.propose(leader),
            56..=61 => Call::Firm { server },
            62..=75 => self.send(leader),
            76..=86 => Call::Apply { server },
            87..=91 => self.outage(place),
            _ => match self.any_down() {
                Some(down) => Call::Restart {
                    server: number(down),
                },
                None => self.progress(None),
            },
        }
    }

    /// Something that leads on, among all servers but the one that is cut off.
    fn progress(&mut self, cut: Option<usize>) -> Call {
        if self.cluster.network.len() > MAX_MESSAGES - 6 && self.rng.chance(40) {
            let position = self.any_position();
            return Call::Lose { position };
        }
        if let Some(down) = self.any_down().filter(|&place| Some(place) != cut) {
            if self.rng.chance(25) {
                return Call::Restart {
                    server: number(down),
                };
            }
        }
        let crowded = self.cluster.network.len() > 6;
        let deliver = self.rng.chance(if crowded { 85 } else { 60 });
        if let Some(call) = deliver.then(|| self.deliver(cut)).flatten() {
            return call;
        }
        let Some(leader) = self.leader(cut) else {
            if let Some(call) = self.deliver(cut) {
                return call;
            }
            let server = number(self.likely_winner(cut));
            return Call::Campaign { server };
        };
        self.lead(leader, cut)
    }

    /// Something for a leader to do, or for those who follow it.
    fn lead(&mut self, place: usize, cut: Option<usize>) -> Call {
        let server = number(place);
        let leader = &self.cluster.servers[place];
        let waiting = leader.store.len() - leader.commit;
        let volatile = leader.store.len() > leader.store.durable;
        let room = leader.store.len() < self.pace;
        // Without an entry of its own term a leader commits nothing.
        let last_term = leader.store.entries.last().map(|entry| entry.term);
        let newly = last_term != Some(leader.store.term) && leader.store.len() < MAX_ENTRIES;
        match self.rng.below(100) {
            0..=24 if newly && self.rng.chance(80) => self.propose_past_pace(place),
            0..=24 if room && waiting < self.appetite => self.propose(place),
            25..=36 if volatile => Call::Firm { server },
            37..=64 => self
                .apply()
                .unwrap_or_else(|| self.send_towards(place, cut)),
            65 if self.trouble() => {
                let server = number(self.any_place());
                Call::Campaign { server }
            }
            66 => Call::Apply {
                server: number(self.any_place()),
            },
            67 => Call::Firm {
                server: number(self.any_place()),
            },
            _ => self.send_towards(place, cut),
        }
    }

    // ---- who ----

    fn any_place(&mut self) -> usize {
        self.rng.below(SERVERS as u64) as usize
    }

    fn pick_where(&mut self, fits: impl Fn(&Server) -> bool) -> Option<usize> {
        let first = self.any_place();
        (first..first + SERVERS)
            .map(|place| place % SERVERS)
            .find(|&place| fits(&self.cluster.servers[place]))
    }

    fn any_down(&mut self) -> Option<usize> {
        self.pick_where(|server| !server.up)
    }

    fn any_leader(&mut self) -> Option<usize> {
        self.pick_where(Server::is_leader)
    }

    /// The leader of the highest term, if no server that reaches it is in a higher one.
    fn leader(&self, cut: Option<usize>) -> Option<usize> {
        let servers = &self.cluster.servers;
        let reached = (0..SERVERS).filter(|&place| Some(place) != cut && servers[place].up);
        let highest = reached.max_by_key(|&place| {
            let server = &servers[place];
            (server.store.term, server.is_leader())
        })?;
        servers[highest].is_leader().then_some(highest)
    }

    /// Mostly a server that is up and whose log has come as far as any.
    fn likely_winner(&mut self, cut: Option<usize>) -> usize {
        let first = self.any_place();
        if self.rng.chance(30) {
            return first;
        }
        (first..first + SERVERS)
            .map(|place| place % SERVERS)
            .filter(|&place| Some(place) != cut && self.cluster.servers[place].up)
            .max_by_key(|&place| {
                let store = &self.cluster.servers[place].store;
                (store.entries.last().map(|entry| entry.term), store.len())
            })
            .unwrap_or(first)
    }

    // ---- calls ----

    /// The first message that can get through, or sometimes a later one; now and then it
    /// stays in the network, to be delivered again.
    fn deliver(&mut self, cut: Option<usize>) -> Option<Call> {
        let passes = |place: usize| {
            let message = &self.cluster.network[place];
            Some(message.sender) != cut
                && Some(message.receiver) != cut
                && self.cluster.servers[message.receiver].up
        };
        let places: Vec<usize> = (0..self.cluster.network.len())
            .filter(|&place| passes(place))
            .collect();
        let first = *places.first()?;
        let place = if self.rng.chance(12) {
            self.rng.pick(&places)
        } else {
            first
        };
        let keep = match self.rng.below(100) {
            0..=3 => 1,
            4 => self.rng.pick(&[2, 256, 65_536, u32::MAX]),
            _ => 0,
        };
        if self.rng.chance(2) {
            return Some(Call::Lose {
                position: number(place),
            });
        }
        Some(Call::Deliver {
            position: number(place),
            keep,
        })
    }

    /// Mostly a position that holds a message.
    fn any_position(&mut self) -> u32 {
        let messages = self.cluster.network.len() as u64;
        1 + self.rng.below(messages + 1).min(messages.max(1) - 1) as u32
    }

    fn lose_message_of(&mut self, place: usize) -> Call {
        let network = &self.cluster.network;
        let of_it = network
            .iter()
            .position(|message| message.sender == place || message.receiver == place);
        let position = number(of_it.unwrap_or(0));
        Call::Lose { position }
    }

    fn propose(&mut self, place: usize) -> Call {
        let full = self.cluster.servers[place].store.len() >= self.pace;
        if full && self.rng.chance(97) {
            return Call::Apply {
                server: number(place),
            };
        }
        self.propose_past_pace(place)
    }

    pub fn propose_past_pace(&mut self, place: usize) -> Call {
        let sheet = newest(&self.cluster.servers[place].machine);
        Call::Propose {
            server: number(place),
            edit: draw_edit(&mut self.rng, &sheet),
        }
    }

    fn send(&mut self, place: usize) -> Call {
        let receiver = (place + 1 + self.rng.below(2) as usize) % SERVERS;
        Call::Send {
            server: number(place),
            receiver: number(receiver),
        }
    }

    /// Mostly to a server that can be reached.
    fn send_towards(&mut self, leader: usize, cut: Option<usize>) -> Call {
        let call = self.send(leader);
        match call {
            Call::Send { receiver, .. } if Some(receiver as usize - 1) == cut => self.send(leader),
            _ => call,
        }
    }

    /// At a server where something may be applied, if there is one; now and then where
    /// sixteen edits are open.
    fn apply(&mut self) -> Option<Call> {
        let many = self.rng.chance(10);
        let place = self.pick_where(|server| {
            let may = server.may_apply();
            may.is_ok() || many && may == Err(Refusal::TooManyOpen)
        })?;
        let server = number(place);
        Some(Call::Apply { server })
    }

    fn wish(&mut self) -> u32 {
        if self.wishless {
            return 0;
        }
        match self.rng.below(3) {
            0 => 0,
            1 => self.rng.below(20) as u32,
            _ => self
                .rng
                .pick(&[1, 2, 7, 8, 9, 16, 63, 64, 65, 256, 65_536, u32::MAX]),
        }
    }

    fn outage(&mut self, place: usize) -> Call {
        Call::Outage {
            server: number(place),
            wish: self.wish(),
        }
    }

    /// Mostly of a ticket handed out lately.
    fn ask_standing(&mut self) -> Call {
        let newest = self.tickets.len();
        let back = self.rng.pick(&[4, 16, 64, usize::MAX]).min(newest) as u64;
        let ticket = match back {
            0 => (self.rng.below(4) as usize, self.rng.below(3) as u32),
            _ => self.tickets[newest - 1 - self.rng.below(back) as usize],
        };
        Call::Standing {
            server: number(self.any_place()),
            number: ticket.0 as u32,
            term: match self.rng.below(10) {
                0 => ticket.1 + 1,
                1 => ticket.1.saturating_sub(1),
                _ => ticket.1,
            },
        }
    }

    fn look(&mut self) -> Call {
        let place = self.any_place();
        self.look_at(place)
    }

    pub fn look_at(&mut self, place: usize) -> Call {
        Call::Look {
            server: number(place),
            row: self.rng.range(1, 8) as u32,
            size: self.rng.range(1, 12) as u32,
        }
    }

    /// A call with a number that names nothing, or may not.
    fn out_of_range(&mut self) -> Call {
        const SERVER_NUMBERS: [u32; 9] = [0, 4, 5, 255, 257, 258, 65_537, 1 << 31, u32::MAX];
        const POSITIONS: [u32; 9] = [0, 24, 25, 26, 256, 257, 65_537, (1 << 31) + 1, u32::MAX];
        const PLACES: [u32; 11] = [
            0,
            8,
            9,
            12,
            13,
            257,
            65_537,
            i32::MAX as u32,
            1 << 31,
            (1 << 31) + 1,
            u32::MAX,
        ];
        let server = self.rng.pick(&SERVER_NUMBERS);
        let known = number(self.any_place());
        let position = self.rng.pick(&POSITIONS);
        match self.rng.below(15) {
            0 => Call::Campaign { server },
            1 => {
                let keep = self.rng.below(2) as u32;
                Call::Deliver { position, keep }
            }
            2 => Call::Lose { position },
            3 => {
                let edit = draw_edit(&mut self.rng, &newest(&self.cluster.servers[0].machine));
                Call::Propose { server, edit }
            }
            4 => Call::Firm { server },
            5 => Call::Send {
                server,
                receiver: known,
            },
            6 => Call::Send {
                server: known,
                receiver: server,
            },
            7 => Call::Send {
                server: known,
                receiver: known,
            },
            8 => Call::Apply { server },
            9 => Call::Outage { server, wish: 0 },
            10 => Call::Restart { server },
            11 => Call::Restart { server: known },
            12 => Call::Standing {
                server,
                number: 1,
                term: 1,
            },
            13 => {
                let tickets = [0, 1, 64, 65, 257, 65_537, 1 << 31, u32::MAX];
                Call::Standing {
                    server: known,
                    number: self.rng.pick(&tickets),
                    term: self.rng.pick(&[0, 1, 2, 1_000_000, 1_000_001, u32::MAX]),
                }
            }
            _ => Call::Look {
                server: if self.rng.chance(20) { server } else { known },
                row: self.rng.pick(&PLACES),
                size: self.rng.pick(&PLACES),
            },
        }
    }

    /// Changes the text of a call so that it is mostly a call no more.
    fn garble(&mut self, line: &mut Vec<u8>) {
        let spaces: Vec<usize> = (0..line.len()).filter(|&at| line[at] == b' ').collect();
        let space = self.rng.pick(&spaces);
        // Bytes to put before the number that follows the space.
        let before: [&[u8]; 12] = [
            b" ",
            b"-",
            b"+",
            b"--",
            b"0",
            b"-0",
            b"00000000000000000000000000",
            b"42949672960",
            b"x",
            b"0x",
            b"\t",
            b"\xc3\xa9",
        ];
        // Bytes to put behind the line.
        let behind: [&[u8]; 12] = [
            b" ", b"\r", b" 1", b" -1", b" 0 0", b"\t", b".", b"-", b"\0", b"\xff", b",1", b"e1",
        ];
        match self.rng.below(10) {
            0..=4 => {
                let bytes = self.rng.pick(&before);
                line.splice(space + 1..space + 1, bytes.iter().copied());
            }
            5..=6 => line.extend_from_slice(self.rng.pick(&behind)),
            7 => line.truncate(space),
            8 => line.truncate(space + 1),
            _ => {
                let at = self.rng.below(line.len() as u64) as usize;
                line[at] = self.rng.pick(b" \tA-\x00\x800129");
            }
        }
    }
}

/// Lines that are no call whatever the cluster holds.
const NO_CALLS: [&[u8]; 32] = [
    b"",
    b" ",
    b"\r",
    b"-",
    b"0",
    b"campaign",
    b"Campaign 1",
    b"campaign1",
    b" campaign 1",
    b"campaign -1",
    b"campaign -0",
    b"campaign 4294967296",
    b"campaign 4294967297",
    b"campaign 18446744073709551617",
    b"deliver 1",
    b"deliver 1 -1",
    b"deliver 1 0 0",
    b"lose -1",
    b"propose 1 1 1 1 100",
    b"propose 1 -0 1 1 100 1",
    b"propose 1 65536 1 1 100 1",
    b"propose 1 65537 1 1 100 1",
    b"propose 1 1 1 1 2147483648 1",
    b"propose 1 1 1 1 -2147483649 1",
    b"look 1 -1 1",
    b"look 1 1 4294967296",
    b"standing 1 1",
    b"close 1 1 1",
    b"write off 1 1 1",
    b"outage 1",
    b"restart\t1",
    b"\xff\xfe",
];

pub fn write_call(call: Call, out: &mut impl Write) -> io::Result<()> {
    match call {
        Call::Campaign { server } => write!(out, "campaign {server}"),
        Call::Deliver { position, keep } => write!(out, "deliver {position} {keep}"),
        Call::Lose { position } => write!(out, "lose {position}"),
        Call::Propose { server, edit } => {
            let Edit {
                kind,
                row,
                size,
                a,
                q,
            } = edit;
            write!(out, "propose {server} {kind} {row} {size} {a} {q}")
        }
        Call::Firm { server } => write!(out, "firm {server}"),
        Call::Send { server, receiver } => write!(out, "send {server} {receiver}"),
        Call::Apply { server } => write!(out, "apply {server}"),
        Call::Outage { server, wish } => write!(out, "outage {server} {wish}"),
        Call::Restart { server } => write!(out, "restart {server}"),
        Call::Standing {
            server,
            number,
            term,
        } => write!(out, "standing {server} {number} {term}"),
        Call::Look { server, row, size } => write!(out, "look {server} {row} {size}"),
    }
}
