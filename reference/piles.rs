//! Runs one list of calls on six clusters, one for each store with each machine, and tells what
//! they answer and where they differ.

use crate::cluster::{Answer, Call, Cluster, Refusal, BUFFERED, PLAIN};
use crate::lines;
use crate::rules::{Machine, ReplayMachine, UndoMachine};
use crate::table_run::{parse, print_servers, standing_word};
use std::io::{self, Write};

/// A cluster of any kind.
trait Pile {
    fn make(&mut self, call: Call) -> Result<Answer, Refusal>;
    /// The three servers, one space apart.
    fn servers(&self) -> String;
}

impl<M: Machine, const HELD: usize> Pile for Cluster<M, HELD> {
    fn make(&mut self, call: Call) -> Result<Answer, Refusal> {
        Cluster::make(self, call)
    }

    fn servers(&self) -> String {
        let mut printed = Vec::new();
        print_servers(&mut printed, self);
        String::from_utf8_lossy(&printed).trim_start().to_string()
    }
}

/// The six in their order. By the rules a store that keeps records and one that keeps bytes
/// are alike.
fn six() -> [Box<dyn Pile>; 6] {
    [
        Box::new(Cluster::<UndoMachine, PLAIN>::opening()),
        Box::new(Cluster::<ReplayMachine, PLAIN>::opening()),
        Box::new(Cluster::<UndoMachine, PLAIN>::opening()),
        Box::new(Cluster::<ReplayMachine, PLAIN>::opening()),
        Box::new(Cluster::<UndoMachine, BUFFERED>::opening()),
        Box::new(Cluster::<ReplayMachine, BUFFERED>::opening()),
    ]
}

pub fn piles(text: &[u8], out: &mut impl Write) -> io::Result<()> {
    let mut piles = six();
    for call in lines(text).filter_map(parse) {
        let said = piles.each_mut().map(|pile| whole(pile.make(call)));
        write_said(&said, out)?;
    }
    write_said(&piles.map(|pile| pile.servers()), out)
}

/// What all piles say, or what each says where they differ.
fn write_said(said: &[String; 6], out: &mut impl Write) -> io::Result<()> {
    match said.iter().all(|one| *one == said[0]) {
        true => writeln!(out, "{}", said[0]),
        false => writeln!(out, "{}", said.join(" | ")),
    }
}

/// The whole answer in words.
fn whole(answer: Result<Answer, Refusal>) -> String {
    match answer {
        Ok(Answer::Nothing) => "done".into(),
        Ok(Answer::Lost(count)) => format!("lost {count}"),
        Ok(Answer::Ticket { number, term }) => format!("ticket {number} {term}"),
        Ok(Answer::Left(count)) => format!("keeps {count}"),
        Ok(Answer::Standing(standing)) => standing_word(standing).into(),
        Ok(Answer::Cell(cell)) => format!("cell {cell}"),
        Err(refusal) => format!("refused {}", refusal as u32),
    }
}
