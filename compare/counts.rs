//! How often each operation gave each answer.

use crate::files::File;
use crate::responder::Answer;
use crate::sides::{Received, Told};

const ANSWERS: usize = 21;
const STATUSES: [u16; 9] = [40, 1, 41, 42, 43, 45, 77, 53, 30];
const OPERATIONS: [&str; 5] = [
    "receive",
    "look up",
    "remove",
    "zero the MIC",
    "set the MIC",
];

pub struct Counts {
    /// In the order of `OPERATIONS`.
    answers: [[usize; ANSWERS]; OPERATIONS.len()],
    statuses: [usize; STATUSES.len()],
    /// Of shown keys: empty, and not.
    keys: [usize; 2],
}

impl Counts {
    pub const fn none() -> Counts {
        Counts {
            answers: [[0; ANSWERS]; OPERATIONS.len()],
            statuses: [0; STATUSES.len()],
            keys: [0; 2],
        }
    }

    pub fn count(&mut self, told: &Told) {
        let (operation, answer) = match *told {
            Told::Received(received) => {
                self.count_status(received);
                (0, received.answer)
            }
            Told::LookedUp(found) => (1, found.map_or_else(|answer| answer, |_| FOUND)),
            Told::Removed(answer) => (2, answer),
            Told::Zeroed(answer) => (3, answer),
            Told::Set(answer) => (4, answer),
            Told::Key(place) => {
                self.keys[usize::from(place.length > 0)] += 1;
                return;
            }
            Told::Empty => return,
        };
        self.answers[operation][usize::from(answer)] += 1;
    }

    fn count_status(&mut self, received: Received) {
        let place = STATUSES.iter().position(|&known| known == received.status);
        if let Some(place) = place {
            self.statuses[place] += 1;
        }
    }

    pub fn installed(&self) -> usize {
        self.answers[0][Answer::Installed as usize]
    }

    pub fn print(&self, out: &mut File) {
        for (operation, answers) in OPERATIONS.iter().zip(&self.answers) {
            out.print(format_args!("{}:", operation));
            for (answer, &count) in answers.iter().enumerate().filter(|(_, &count)| count > 0) {
                out.print(format_args!(" {}\u{d7}{}", answer, count));
            }
            out.print(format_args!("\n"));
        }
        out.print(format_args!("status beside 11:"));
        for (status, count) in STATUSES.iter().zip(self.statuses) {
            out.print(format_args!(" {}\u{d7}{}", status, count));
        }
        let [none, some] = self.keys;
        out.print(format_args!("\nkey shown: {}, none: {}\n", some, none));
    }
}

const FOUND: u8 = Answer::Found as u8;
