//! A story of tickets: what is proposed is closed at several servers, under two leaders.

use crate::cluster::{Answer, Call, Cluster};
use crate::rules::Edit;
use crate::table_run::standing_word;
use std::io::{self, Write};

/// What a proposal hands out. It is used up when it is closed or written off.
struct Ticket {
    number: usize,
    term: u32,
}

impl Ticket {
    /// Gives the ticket up, whatever becomes of its edit.
    fn write_off(self) {}
}

pub fn ticket_story(out: &mut impl Write) -> io::Result<()> {
    let mut story = Story {
        cluster: Cluster::opening(),
        out,
    };
    story.elect(1, 1);
    let first = story.propose(1, set(7_200));
    story.replicate(1, 2);
    let second = story.propose(1, grade(415));
    let third = story.propose(1, set(7_240));
    story.close(1, first)?;
    let second = story.close_refused(1, second)?;

    story.elect(2, 2);
    let fourth = story.propose(2, grade(425));
    for _ in 0..3 {
        story.replicate(2, 3);
    }
    story.close(2, second)?;
    let third = story.close_refused(2, third)?;
    let third = story.close_refused(4, third)?;
    story.make(Call::Outage { server: 3, wish: 0 });
    let third = story.close_refused(3, third)?;
    story.close(2, fourth)?;
    third.write_off();
    Ok(())
}

/// Sets the cell at row 1 and size 5.
fn set(cell: i32) -> Edit {
    Edit {
        kind: 1,
        row: 1,
        size: 5,
        a: cell,
        q: 0,
    }
}

/// Grades row 1 from size 5 by so many halves.
fn grade(halves: i32) -> Edit {
    Edit {
        kind: 2,
        row: 1,
        size: 5,
        a: halves,
        q: 2,
    }
}

struct Story<'a, W> {
    cluster: Cluster,
    out: &'a mut W,
}

impl<W: Write> Story<'_, W> {
    /// Makes a call that must not be refused and must lose no message.
    fn make(&mut self, call: Call) -> Answer {
        let answer = self.cluster.make(call).expect("a call that is not refused");
        assert!(!matches!(answer, Answer::Lost(1..)), "a message is lost");
        answer
    }

    /// Delivers a message and does not keep it.
    fn deliver(&mut self, position: u32) {
        self.make(Call::Deliver { position, keep: 0 });
    }

    /// Has the server elected by the receiver of the vote request at that position. The other
    /// request is lost.
    fn elect(&mut self, server: u32, position: u32) {
        self.make(Call::Campaign { server });
        self.deliver(position);
        self.deliver(2);
        self.make(Call::Lose { position: 1 });
    }

    /// Syncs the server, sends to the receiver and hears the reply.
    fn replicate(&mut self, server: u32, receiver: u32) {
        self.make(Call::Firm { server });
        self.make(Call::Send { server, receiver });
        self.deliver(1);
        self.deliver(1);
    }

    fn propose(&mut self, server: u32, edit: Edit) -> Ticket {
        match self.make(Call::Propose { server, edit }) {
            Answer::Ticket { number, term } => Ticket { number, term },
            other => panic!("no ticket but {other:?}"),
        }
    }

    /// Closes the ticket at the server and prints what is told. A refused ticket is given back.
    fn close(&mut self, server: u32, ticket: Ticket) -> io::Result<Option<Ticket>> {
        let Ticket { number, term } = ticket;
        write!(self.out, "close {server} {number} {term}: ")?;
        match self.cluster.close(server, number, term) {
            Ok(standing) => {
                writeln!(self.out, "{}", standing_word(standing))?;
                Ok(None)
            }
            Err(refusal) => {
                writeln!(self.out, "refused {}", refusal as u32)?;
                Ok(Some(ticket))
            }
        }
    }

    /// Closes the ticket where that must be refused.
    fn close_refused(&mut self, server: u32, ticket: Ticket) -> io::Result<Ticket> {
        let kept = self.close(server, ticket)?;
        Ok(kept.expect("a ticket that is not closed yet"))
    }
}
