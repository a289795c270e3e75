//! The rules of the cluster, written straight from their description: three servers, the
//! network between them and the calls.

use crate::images::{Entry, MAX_ENTRIES};
use crate::rules::{Edit, Machine, UndoMachine, MAX_OPEN};

pub const SERVERS: usize = 3;
/// The most messages in the network.
pub const MAX_MESSAGES: usize = 24;
/// The highest term.
const MAX_TERM: u32 = 1_000_000;
/// A store with no buffer above it: one that keeps records, or one that keeps bytes.
pub const PLAIN: usize = 0;
/// A store under a buffer that holds back up to 8 entries.
pub const BUFFERED: usize = 8;
/// How many voters make a leader, and how many holders a commit.
const MAJORITY: usize = 2;

/// Why a call is refused. The discriminants are the numbers of the refusals.
#[derive(Clone, Copy, Debug, PartialEq, Eq)]
pub enum Refusal {
    NoSuchServer = 1,
    ServerDown = 2,
    IsLeader = 3,
    TermLimit = 4,
    NoSuchMessage = 5,
    NotLeader = 6,
    LogFull = 7,
    SameServer = 8,
    NothingToApply = 9,
    TooManyOpen = 10,
    AlreadyUp = 11,
    Undecided = 12,
    NoSuchCell = 13,
}

/// What a server remembers: a store, under a buffer of `HELD` entries if that is not 0.
///
/// The first `durable` entries are durable, the first `handed` have been handed down, and
/// the others are held back by the buffer. So `durable <= handed <= entries.len()`, and with
/// no buffer all are handed down.
pub struct Store<const HELD: usize> {
    pub term: u32,
    /// The place of the server that got the vote.
    pub vote: Option<usize>,
    pub entries: Vec<Entry>,
    pub durable: usize,
    handed: usize,
}

impl<const HELD: usize> Store<HELD> {
    fn empty() -> Self {
        Store {
            term: 0,
            vote: None,
            entries: Vec::with_capacity(MAX_ENTRIES),
            durable: 0,
            handed: 0,
        }
    }

    pub fn len(&self) -> usize {
        self.entries.len()
    }

    pub fn entry(&self, number: usize) -> Option<&Entry> {
        self.entries.get(number.checked_sub(1)?)
    }

    /// The term of the entry at a number, 0 before entry 1, nothing past the last entry.
    fn tip(&self, number: usize) -> Option<u32> {
        match number {
            0 => Some(0),
            _ => self.entry(number).map(|entry| entry.term),
        }
    }

    /// How far the log has come: the last term, which weighs first, and the length.
    pub fn pair(&self) -> (u32, usize) {
        (
            self.entries.last().map_or(0, |entry| entry.term),
            self.len(),
        )
    }

    /// There must be room.
    fn append(&mut self, entry: Entry) {
        if self.len() - self.handed == HELD {
            self.handed = self.len();
        }
        self.entries.push(entry);
        if HELD == PLAIN {
            self.handed = self.len();
        }
    }

    fn truncate(&mut self, len: usize) {
        self.entries.truncate(len);
        self.handed = self.handed.min(len);
        self.durable = self.durable.min(len);
    }

    fn sync(&mut self) {
        self.handed = self.len();
        self.durable = self.len();
    }

    /// Loses what the buffer holds back, and of the volatile entries below it all but as many
    /// as wished. Tells how many entries are left.
    fn crash(&mut self, wish: u32) -> usize {
        let kept = self.durable + (self.handed - self.durable).min(wish as usize);
        self.truncate(kept);
        self.sync();
        kept
    }
}

#[derive(Clone, Copy)]
pub enum Role {
    Follower,
    Candidate {
        voters: [bool; SERVERS],
    },
    /// For each other server, the number of the entry to send next, and how many entries it
    /// is known to hold. At the leader's own place both say nothing, and `matched` is 0.
    Leader {
        next: [usize; SERVERS],
        matched: [usize; SERVERS],
    },
}

/// A server with a store of that kind and a machine of type `M`.
pub struct Server<M = UndoMachine, const HELD: usize = BUFFERED> {
    pub store: Store<HELD>,
    pub up: bool,
    pub role: Role,
    pub commit: usize,
    pub applied: usize,
    pub machine: M,
}

#[derive(Clone, Copy, Debug, PartialEq, Eq)]
pub enum Standing {
    Kept,
    Gone,
    Open,
    Unknown,
}

#[derive(Clone, Copy)]
pub struct Message {
    pub sender: usize,
    pub receiver: usize,
    /// The sender's term.
    pub term: u32,
    body: Body,
}

#[derive(Clone, Copy)]
enum Body {
    VoteRequest { pair: (u32, usize) },
    VoteReply { yes: bool },
    AppendRequest(Append),
    AppendReply { yes: bool, m: usize },
}

/// What an append request carries: the number and the term of the entry before, the leader's
/// commit, and the entry to append, if there is one.
#[derive(Clone, Copy)]
struct Append {
    before: usize,
    before_term: u32,
    commit: usize,
    entry: Option<Entry>,
}

const APPEND_NO: Body = Body::AppendReply { yes: false, m: 0 };

impl<M: Machine, const HELD: usize> Server<M, HELD> {
    fn opening() -> Self {
        Server {
            store: Store::empty(),
            up: true,
            role: Role::Follower,
            commit: 0,
            applied: 0,
            machine: M::open(),
        }
    }

    pub fn is_leader(&self) -> bool {
        matches!(self.role, Role::Leader { .. })
    }

    /// Takes open edits back until at most so many entries are applied.
    fn undo_to(&mut self, count: usize) {
        while self.applied > count {
            self.machine.undo().expect("an open edit");
            self.applied -= 1;
        }
    }

    /// Raises commit, if that is higher; what is applied and now committed is settled.
    fn raise_commit(&mut self, count: usize) {
        while self.commit < count {
            if self.commit < self.applied {
                self.machine.settle().expect("an open edit");
            }
            self.commit += 1;
        }
    }

    fn take_term(&mut self, term: u32) {
        self.undo_to(self.commit);
        self.store.term = term;
        self.store.vote = None;
        self.role = Role::Follower;
    }

    // ---- elections ----

    fn hear_vote_request(&mut self, message: &Message, pair: (u32, usize)) -> Body {
        let yes = message.term == self.store.term
            && self.store.vote.is_none_or(|vote| vote == message.sender)
            && pair >= self.store.pair();
        if yes {
            self.store.vote = Some(message.sender);
        }
        Body::VoteReply { yes }
    }

    fn hear_vote_reply(&mut self, message: &Message, yes: bool) {
        let Role::Candidate { voters } = &mut self.role else {
            return;
        };
        if message.term != self.store.term || !yes {
            return;
        }
        voters[message.sender] = true;
        if voters.iter().filter(|&&voter| voter).count() >= MAJORITY {
            self.role = Role::Leader {
                next: [self.store.len() + 1; SERVERS],
                matched: [0; SERVERS],
            };
        }
    }

    // ---- replication ----

    fn hear_append(&mut self, term: u32, append: &Append) -> Option<Body> {
        if term < self.store.term {
            return Some(APPEND_NO);
        }
        if self.is_leader() {
            return None;
        }
        self.role = Role::Follower;
        if self.store.tip(append.before) != Some(append.before_term) {
            return Some(APPEND_NO);
        }
        if let Some(entry) = append.entry {
            let number = append.before + 1;
            if number > MAX_ENTRIES {
                return None;
            }
            match self.store.entry(number) {
                Some(held) if held.term == entry.term => {}
                Some(_) if number <= self.commit => return None,
                Some(_) => {
                    self.undo_to(append.before);
                    self.store.truncate(append.before);
                    self.store.append(entry);
                }
                None => self.store.append(entry),
            }
        }
        self.store.sync();
        let m = append.before + usize::from(append.entry.is_some());
        self.raise_commit(append.commit.min(m));
        Some(Body::AppendReply { yes: true, m })
    }

    fn hear_append_reply(&mut self, message: &Message, yes: bool, m: usize) {
        let Role::Leader { next, matched } = &mut self.role else {
            return;
        };
        if message.term != self.store.term {
            return;
        }
        let (next, matched) = (&mut next[message.sender], &mut matched[message.sender]);
        if yes {
            *matched = m.max(*matched);
            *next = (*next).max(*matched + 1);
        } else {
            *next = (*next - 1).max(*matched + 1);
        }
        self.raise_leaders_commit();
    }

    /// A leader's commit rises to the largest number of an entry of its own term that two
    /// servers hold: the leader what is durable, another what is known to match.
    fn raise_leaders_commit(&mut self) {
        let Role::Leader { matched, .. } = self.role else {
            return;
        };
        let two_hold = |number: usize| {
            let others = matched.iter().filter(|&&held| held >= number).count();
            others + usize::from(self.store.durable >= number) >= MAJORITY
        };
        let own_term = |number| self.store.tip(number) == Some(self.store.term);
        let top = (self.commit + 1..=self.store.len())
            .rev()
            .find(|&number| own_term(number) && two_hold(number));
        if let Some(top) = top {
            self.raise_commit(top);
        }
    }

    fn append_request(&self, next: usize) -> Append {
        let before = next - 1;
        Append {
            before,
            before_term: self.store.tip(before).expect("an entry before the next"),
            commit: self.commit,
            entry: self.store.entry(next).copied(),
        }
    }

    /// Hears a message whose term is by now at most its own, and gives the reply.
    fn hear(&mut self, message: &Message) -> Option<Body> {
        match message.body {
            Body::VoteRequest { pair } => Some(self.hear_vote_request(message, pair)),
            Body::VoteReply { yes } => {
                self.hear_vote_reply(message, yes);
                None
            }
            Body::AppendRequest(append) => self.hear_append(message.term, &append),
            Body::AppendReply { yes, m } => {
                self.hear_append_reply(message, yes, m);
                None
            }
        }
    }

    // ---- at one server ----

    /// Whether the next entry may be applied.
    pub fn may_apply(&self) -> Result<(), Refusal> {
        if self.applied < self.commit {
            return Ok(());
        }
        let own_term_at_commit =
            self.commit >= 1 && self.store.tip(self.commit) == Some(self.store.term);
        if self.applied == self.store.len() || !own_term_at_commit {
            return Err(Refusal::NothingToApply);
        }
        if self.applied - self.commit >= MAX_OPEN {
            return Err(Refusal::TooManyOpen);
        }
        Ok(())
    }

    fn apply(&mut self) -> Result<(), Refusal> {
        self.may_apply()?;
        let edit = self.store.entries[self.applied].edit;
        self.machine.apply(edit).expect("room for one more state");
        self.applied += 1;
        if self.applied <= self.commit {
            self.machine.settle().expect("an open edit");
        }
        Ok(())
    }

    pub fn standing(&self, number: usize, term: u32) -> Standing {
        let held = self.store.entry(number).map(|entry| entry.term == term);
        match held {
            Some(true) if number <= self.commit => Standing::Kept,
            Some(false) if number <= self.commit => Standing::Gone,
            Some(true) => Standing::Open,
            _ => Standing::Unknown,
        }
    }
}

/// A call with its numbers as they were given, in range or not.
#[derive(Clone, Copy, Debug)]
pub enum Call {
    Campaign { server: u32 },
    Deliver { position: u32, keep: u32 },
    Lose { position: u32 },
    Propose { server: u32, edit: Edit },
    Firm { server: u32 },
    Send { server: u32, receiver: u32 },
    Apply { server: u32 },
    Outage { server: u32, wish: u32 },
    Restart { server: u32 },
    Standing { server: u32, number: u32, term: u32 },
    Look { server: u32, row: u32, size: u32 },
}

/// What a call answers with.
#[derive(Clone, Copy, Debug, PartialEq, Eq)]
pub enum Answer {
    Nothing,
    /// How many messages found no room in the network.
    Lost(u32),
    Ticket {
        number: usize,
        term: u32,
    },
    /// How many entries an outage has left.
    Left(usize),
    Standing(Standing),
    Cell(u16),
}

/// Three servers of one kind, and the network between them. Where nothing else is said they
/// are those of table-run.
pub struct Cluster<M = UndoMachine, const HELD: usize = BUFFERED> {
    pub servers: [Server<M, HELD>; SERVERS],
    pub network: Vec<Message>,
}

/// The place of the server with this number.
fn numbered(number: u32) -> Result<usize, Refusal> {
    match number {
        1..=3 => Ok(number as usize - 1),
        _ => Err(Refusal::NoSuchServer),
    }
}

impl<M: Machine, const HELD: usize> Cluster<M, HELD> {
    pub fn opening() -> Self {
        Cluster {
            servers: std::array::from_fn(|_| Server::opening()),
            network: Vec::with_capacity(MAX_MESSAGES),
        }
    }

    /// The place of the server with this number, which must be up.
    fn place_up(&self, number: u32) -> Result<usize, Refusal> {
        let place = numbered(number)?;
        if !self.servers[place].up {
            return Err(Refusal::ServerDown);
        }
        Ok(place)
    }

    /// The server with this number, which must be up.
    fn up(&mut self, number: u32) -> Result<&mut Server<M, HELD>, Refusal> {
        let place = self.place_up(number)?;
        Ok(&mut self.servers[place])
    }

    /// The place in the network's list of the message at this position.
    fn message_at(&self, position: u32) -> Result<usize, Refusal> {
        (position as usize)
            .checked_sub(1)
            .filter(|&place| place < self.network.len())
            .ok_or(Refusal::NoSuchMessage)
    }

    /// Tells how many messages are lost.
    fn post(&mut self, message: Message) -> u32 {
        if self.network.len() == MAX_MESSAGES {
            return 1;
        }
        self.network.push(message);
        0
    }

    /// Makes the call. A refused one changes nothing.
    pub fn make(&mut self, call: Call) -> Result<Answer, Refusal> {
        match call {
            Call::Campaign { server } => self.campaign(server),
            Call::Deliver { position, keep } => self.deliver(position, keep != 0),
            Call::Lose { position } => {
                let place = self.message_at(position)?;
                self.network.remove(place);
                Ok(Answer::Nothing)
            }
            Call::Propose { server, edit } => self.propose(server, edit),
            Call::Firm { server } => {
                let server = self.up(server)?;
                server.store.sync();
                server.raise_leaders_commit();
                Ok(Answer::Nothing)
            }
            Call::Send { server, receiver } => self.send(server, receiver),
            Call::Apply { server } => {
                self.up(server)?.apply()?;
                Ok(Answer::Nothing)
            }
            Call::Outage { server, wish } => self.outage(server, wish),
            Call::Restart { server } => self.restart(server),
            Call::Standing {
                server,
                number,
                term,
            } => {
                let standing = self.up(server)?.standing(number as usize, term);
                Ok(Answer::Standing(standing))
            }
            Call::Look { server, row, size } => self.look(server, row, size),
        }
    }

    fn campaign(&mut self, number: u32) -> Result<Answer, Refusal> {
        let server = self.up(number)?;
        if server.is_leader() {
            return Err(Refusal::IsLeader);
        }
        if server.store.term == MAX_TERM {
            return Err(Refusal::TermLimit);
        }
        let place = number as usize - 1;
        let term = server.store.term + 1;
        server.take_term(term);
        server.store.vote = Some(place);
        let mut voters = [false; SERVERS];
        voters[place] = true;
        server.role = Role::Candidate { voters };
        let pair = server.store.pair();
        let mut lost = 0;
        for receiver in (0..SERVERS).filter(|&other| other != place) {
            lost += self.post(Message {
                sender: place,
                receiver,
                term,
                body: Body::VoteRequest { pair },
            });
        }
        Ok(Answer::Lost(lost))
    }

    fn deliver(&mut self, position: u32, keep: bool) -> Result<Answer, Refusal> {
        let place = self.message_at(position)?;
        let message = self.network[place];
        let server = &mut self.servers[message.receiver];
        if !server.up {
            return Err(Refusal::ServerDown);
        }
        if !keep {
            self.network.remove(place);
        }
        if server.store.term < message.term {
            server.take_term(message.term);
        }
        let lost = match server.hear(&message) {
            Some(body) => {
                let term = server.store.term;
                self.post(Message {
                    sender: message.receiver,
                    receiver: message.sender,
                    term,
                    body,
                })
            }
            None => 0,
        };
        Ok(Answer::Lost(lost))
    }

    fn propose(&mut self, server: u32, edit: Edit) -> Result<Answer, Refusal> {
        let server = self.up(server)?;
        if !server.is_leader() {
            return Err(Refusal::NotLeader);
        }
        if server.store.len() == MAX_ENTRIES {
            return Err(Refusal::LogFull);
        }
        let term = server.store.term;
        server.store.append(Entry { term, edit });
        Ok(Answer::Ticket {
            number: server.store.len(),
            term,
        })
    }

    fn send(&mut self, sender: u32, receiver: u32) -> Result<Answer, Refusal> {
        let (place, to) = (numbered(sender)?, numbered(receiver)?);
        let server = self.up(sender)?;
        let Role::Leader { next, .. } = &server.role else {
            return Err(Refusal::NotLeader);
        };
        if place == to {
            return Err(Refusal::SameServer);
        }
        let message = Message {
            sender: place,
            receiver: to,
            term: server.store.term,
            body: Body::AppendRequest(server.append_request(next[to])),
        };
        Ok(Answer::Lost(self.post(message)))
    }

    fn outage(&mut self, server: u32, wish: u32) -> Result<Answer, Refusal> {
        let server = self.up(server)?;
        server.up = false;
        server.role = Role::Follower;
        server.commit = 0;
        server.applied = 0;
        server.machine.reset();
        Ok(Answer::Left(server.store.crash(wish)))
    }

    fn restart(&mut self, server: u32) -> Result<Answer, Refusal> {
        let server = &mut self.servers[numbered(server)?];
        if server.up {
            return Err(Refusal::AlreadyUp);
        }
        server.up = true;
        Ok(Answer::Nothing)
    }

    fn look(&self, server: u32, row: u32, size: u32) -> Result<Answer, Refusal> {
        let machine = &self.servers[self.place_up(server)?].machine;
        let word = |number| i32::try_from(number).map_err(|_| Refusal::NoSuchCell);
        let cell = machine.read(word(row)?, word(size)?);
        cell.map(Answer::Cell).map_err(|_| Refusal::NoSuchCell)
    }

    /// The call that no line says: tells whether a ticket is kept or gone.
    pub fn close(&self, server: u32, number: usize, term: u32) -> Result<Standing, Refusal> {
        let server = &self.servers[self.place_up(server)?];
        match server.standing(number, term) {
            told @ (Standing::Kept | Standing::Gone) => Ok(told),
            Standing::Open | Standing::Unknown => Err(Refusal::Undecided),
        }
    }
}
