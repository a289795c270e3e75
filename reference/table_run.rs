//! Runs a cluster by lines: each is read as a call, made, and answered by a line.

use crate::cluster::{Answer, Call, Cluster, Refusal, Role, Server, Standing};
use crate::rules::{Edit, Machine};
use crate::{lines, natural, word32};
use std::io::{self, Write};

/// The answer to a line that is no call.
const NO_CALL: u32 = 14;

/// The call that a line says, if it says one.
pub fn parse(line: &[u8]) -> Option<Call> {
    // More than one space in a row makes an empty word, which is no number.
    let mut words = line.split(|&byte| byte == b' ');
    let name = words.next()?;
    let mut number = || natural(words.next()?, u32::MAX);
    let call = match name {
        b"campaign" => Call::Campaign { server: number()? },
        b"deliver" => Call::Deliver {
            position: number()?,
            keep: number()?,
        },
        b"lose" => Call::Lose {
            position: number()?,
        },
        b"propose" => Call::Propose {
            server: number()?,
            edit: Edit {
                kind: natural(words.next()?, u16::MAX.into())? as u16,
                row: word32(words.next()?)?,
                size: word32(words.next()?)?,
                a: word32(words.next()?)?,
                q: word32(words.next()?)?,
            },
        },
        b"firm" => Call::Firm { server: number()? },
        b"send" => Call::Send {
            server: number()?,
            receiver: number()?,
        },
        b"apply" => Call::Apply { server: number()? },
        b"outage" => Call::Outage {
            server: number()?,
            wish: number()?,
        },
        b"restart" => Call::Restart { server: number()? },
        b"standing" => Call::Standing {
            server: number()?,
            number: number()?,
            term: number()?,
        },
        b"look" => Call::Look {
            server: number()?,
            row: number()?,
            size: number()?,
        },
        _ => return None,
    };
    words.next().is_none().then_some(call)
}

pub fn table_run(text: &[u8], out: &mut impl Write) -> io::Result<()> {
    let mut cluster = Cluster::opening();
    let mut printed = Vec::new();
    for line in lines(text) {
        printed.clear();
        match parse(line) {
            Some(call) => {
                let answer = cluster.make(call);
                print_answer(&mut printed, answer, &cluster);
            }
            None => {
                print_number(&mut printed, NO_CALL);
                print_servers(&mut printed, &cluster);
            }
        }
        printed.push(b'\n');
        out.write_all(&printed)?;
    }
    Ok(())
}

fn print_answer(printed: &mut Vec<u8>, answer: Result<Answer, Refusal>, cluster: &Cluster) {
    print_number(printed, answer.err().map_or(0, |refusal| refusal as u32));
    print_servers(printed, cluster);
    match answer {
        Ok(Answer::Left(count)) => {
            printed.push(b' ');
            print_number(printed, count as u32);
        }
        Ok(Answer::Standing(standing)) => {
            printed.push(b' ');
            printed.extend_from_slice(standing_word(standing).as_bytes());
        }
        Ok(Answer::Cell(cell)) => {
            printed.push(b' ');
            print_number(printed, cell.into());
        }
        Ok(Answer::Nothing | Answer::Lost(_) | Answer::Ticket { .. }) | Err(_) => {}
    }
}

pub fn standing_word(standing: Standing) -> &'static str {
    match standing {
        Standing::Kept => "kept",
        Standing::Gone => "gone",
        Standing::Open => "open",
        Standing::Unknown => "unknown",
    }
}

/// The three servers, with a space before each.
pub fn print_servers<M: Machine, const HELD: usize>(
    printed: &mut Vec<u8>,
    cluster: &Cluster<M, HELD>,
) {
    for server in &cluster.servers {
        printed.push(b' ');
        print_number(printed, server.store.term);
        printed.extend_from_slice(&[b'/', role_letter(server)]);
        let store = &server.store;
        for count in [store.len(), store.durable, server.commit, server.applied] {
            printed.push(b'/');
            print_number(printed, count as u32);
        }
    }
}

fn role_letter<M, const HELD: usize>(server: &Server<M, HELD>) -> u8 {
    match server.role {
        _ if !server.up => b'd',
        Role::Follower => b'f',
        Role::Candidate { .. } => b'c',
        Role::Leader { .. } => b'l',
    }
}

fn print_number(printed: &mut Vec<u8>, mut number: u32) {
    let mut digits = [0; 10];
    let mut first = digits.len();
    loop {
        first -= 1;
        digits[first] = b'0' + (number % 10) as u8;
        number /= 10;
        if number == 0 {
            break;
        }
    }
    printed.extend_from_slice(&digits[first..]);
}
