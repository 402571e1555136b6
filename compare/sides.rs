//! The two sides of a comparison take the same calls and tell their answers in the same words.

use crate::generator::{Call, Operation};
use crate::responder::{self, Address, Answer, Arrival, Phase, Record, Step, Table, Tu};
use core::fmt::{self, Display, Formatter};

/// What a call was told, beside the octets that it wrote.
#[derive(Clone, Copy, PartialEq, Eq)]
pub enum Told {
    Received(Received),
    LookedUp(Result<Record, u8>),
    Removed(u8),
    Key(Place),
    Zeroed(u8),
    Set(u8),
    Empty,
}

#[derive(Clone, Copy, PartialEq, Eq)]
pub struct Received {
    pub answer: u8,
    /// 0 beside any answer but 11.
    pub status: u16,
    pub length: usize,
}

/// Where a part stands in the body.
#[derive(Clone, Copy, PartialEq, Eq)]
pub struct Place {
    pub start: usize,
    pub length: usize,
}

/// The buffers that calls write to. A call is lent the front of one; none is longer in a call log.
#[derive(Clone, PartialEq, Eq)]
pub struct Buffers {
    pub reply: [u8; 2048],
    pub second: [u8; 2048],
    pub body: [u8; 4096],
}

impl Buffers {
    pub const fn new() -> Buffers {
        Buffers {
            reply: [0; 2048],
            second: [0; 2048],
            body: [0; 4096],
        }
    }

    /// Octets that depend on their place and on the number given.
    pub fn fill_with_noise(&mut self, number: u64) {
        let Buffers {
            reply,
            second,
            body,
        } = self;
        let mut word = number;
        for buffer in [&mut reply[..], second, body] {
            for octets in buffer.chunks_exact_mut(8) {
                word = word.wrapping_add(0x9e37_79b9_7f4a_7c15);
                octets.copy_from_slice(&(word ^ word >> 29).to_le_bytes());
            }
        }
    }
}

/// A responder, and the table that it keeps.
pub trait Side {
    fn empty(&mut self);
    fn receive(&mut self, arrival: &Arrival, reply: &mut [u8]) -> Received;
    /// The record, or the answer.
    fn look_up(&self, now: Tu, address: Address) -> Result<Record, u8>;
    fn remove(&mut self, now: Tu, address: Address) -> u8;
    fn show_key(&self, body: &[u8]) -> Place;
    fn zero_mic(&self, body: &[u8], second: &mut [u8]) -> u8;
    fn set_mic(&self, body: &mut [u8], mic: &[u8]) -> u8;

    fn make(&mut self, call: &Call, buffers: &mut Buffers) -> Told {
        let body = call.body.as_slice();
        match call.operation {
            Operation::Receive => {
                let reply = &mut buffers.reply[..call.setup.reply_length];
                Told::Received(self.receive(&call.arrival(), reply))
            }
            Operation::LookUp => Told::LookedUp(self.look_up(call.now, call.address)),
            Operation::Remove => Told::Removed(self.remove(call.now, call.address)),
            Operation::ShowKey => Told::Key(self.show_key(body)),
            Operation::ZeroMic => {
                let second = &mut buffers.second[..call.second_length];
                Told::Zeroed(self.zero_mic(body, second))
            }
            Operation::SetMic => {
                let copy = &mut buffers.body[..body.len()];
                copy.copy_from_slice(body);
                Told::Set(self.set_mic(copy, call.setup.mic.as_slice()))
            }
            Operation::Empty => {
                self.empty();
                Told::Empty
            }
        }
    }
}

impl Side for Table {
    fn empty(&mut self) {
        *self = Table::empty();
    }

    fn receive(&mut self, arrival: &Arrival, reply: &mut [u8]) -> Received {
        let outcome = Table::receive(self, arrival, reply);
        Received {
            answer: outcome.answer as u8,
            status: outcome.refused_at.map_or(0, Step::status),
            length: outcome.length,
        }
    }

    fn look_up(&self, now: Tu, address: Address) -> Result<Record, u8> {
        let found = Table::look_up(self, now, address);
        found.copied().map_err(|answer| answer as u8)
    }

    fn remove(&mut self, now: Tu, address: Address) -> u8 {
        Table::remove(self, now, address) as u8
    }

    fn show_key(&self, body: &[u8]) -> Place {
        let key = responder::show_key(body);
        Place {
            start: key.as_ptr() as usize - body.as_ptr() as usize,
            length: key.len(),
        }
    }

    fn zero_mic(&self, body: &[u8], second: &mut [u8]) -> u8 {
        responder::zero_mic(body, second) as u8
    }

    fn set_mic(&self, body: &mut [u8], mic: &[u8]) -> u8 {
        responder::set_mic(body, mic) as u8
    }
}

/// The line that a replay prints for a call.
pub struct Line<'a> {
    pub call: &'a Call,
    pub told: Told,
    pub buffers: &'a Buffers,
}

impl Line<'_> {
    /// The body as it was left, if the MIC was zeroed or set.
    fn output<'a>(&self, answer: u8, buffer: &'a [u8]) -> Hex<'a> {
        match answer == Answer::MicDone as u8 {
            true => front(buffer, self.call.body.as_slice().len()),
            false => Hex(&[]),
        }
    }
}

impl Display for Line<'_> {
    fn fmt(&self, out: &mut Formatter) -> fmt::Result {
        match self.told {
            Told::Received(received) => {
                let reply = front(&self.buffers.reply, received.length);
                write!(out, "receive {} {}", received, reply)
            }
            Told::LookedUp(Ok(record)) => write!(out, "look {}", Shown(&record)),
            Told::LookedUp(Err(answer)) => write!(out, "look {}", answer),
            Told::Removed(answer) => write!(out, "remove {}", answer),
            Told::Key(place) => {
                let body = self.call.body.as_slice();
                let rest = body.get(place.start..).unwrap_or(&[]);
                write!(out, "key {}", front(rest, place.length))
            }
            Told::Zeroed(answer) => {
                let output = self.output(answer, &self.buffers.second);
                write!(out, "zero {} {}", answer, output)
            }
            Told::Set(answer) => {
                let output = self.output(answer, &self.buffers.body);
                write!(out, "set {} {}", answer, output)
            }
            Told::Empty => out.write_str("empty"),
        }
    }
}

impl Display for Received {
    fn fmt(&self, out: &mut Formatter) -> fmt::Result {
        match self.answer == Answer::FirstRefused as u8 {
            true => write!(out, "{} {} {}", self.answer, self.status, self.length),
            false => write!(out, "{} - {}", self.answer, self.length),
        }
    }
}

struct Shown<'a>(&'a Record);

impl Display for Shown<'_> {
    fn fmt(&self, out: &mut Formatter) -> fmt::Result {
        let record = self.0;
        let phase = match record.phase {
            Phase::Waiting { .. } => "waiting",
            Phase::Installed { .. } => "installed",
        };
        let pmkid = Hex(record.pmkid.as_ref().map_or(&[], |pmkid| pmkid));
        write!(
            out,
            "{} {} {} {} {} {} {}",
            Answer::Found as u8,
            phase,
            record.cipher,
            record.akm,
            pmkid,
            record.lifetime.0,
            record.time().0
        )
    }
}

/// Lower-case hex, and `-` for nothing.
struct Hex<'a>(&'a [u8]);

fn front(octets: &[u8], length: usize) -> Hex<'_> {
    Hex(&octets[..length.min(octets.len())])
}

impl Display for Hex<'_> {
    fn fmt(&self, out: &mut Formatter) -> fmt::Result {
        if self.0.is_empty() {
            return out.write_str("-");
        }
        let mut octets = self.0.iter();
        octets.try_for_each(|octet| write!(out, "{:02x}", octet))
    }
}
