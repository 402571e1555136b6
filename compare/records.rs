//! The records of a call log.

use crate::files::File;
use crate::generator::{Call, Operation, Setup};
use crate::responder::{Address, Settings, Tu};

/// A call log, and the set-up that its records so far have put in force.
pub struct CallLog {
    file: File,
    in_force: Setup,
}

impl CallLog {
    pub fn to(file: File) -> CallLog {
        CallLog {
            file,
            in_force: Setup::initial(),
        }
    }

    /// A call, after the set-up records that it needs.
    pub fn put(&mut self, call: &Call) {
        self.put_setup(&call.setup);
        let clock = call.now.0.to_le_bytes();
        let body = call.body.as_slice();
        let second_length = (call.second_length as u16).to_le_bytes();
        match call.operation {
            Operation::Receive => self.put_record(16, &[&clock, &call.address, body]),
            Operation::LookUp => self.put_look_up(call.now, call.address),
            Operation::Remove => self.put_record(18, &[&clock, &call.address]),
            Operation::ShowKey => self.put_record(19, &[body]),
            Operation::ZeroMic => self.put_record(20, &[&second_length, body]),
            Operation::SetMic => self.put_record(21, &[body]),
            Operation::Empty => self.put_record(22, &[]),
        }
    }

    pub fn put_look_up(&mut self, now: Tu, address: Address) {
        self.put_record(17, &[&now.0.to_le_bytes(), &address]);
    }

    pub fn flush(&mut self) {
        self.file.flush();
    }

    fn put_setup(&mut self, needed: &Setup) {
        if self.in_force.settings != needed.settings {
            self.put_record(1, &[&settings_value(&needed.settings)]);
        }
        if self.in_force.cache != needed.cache {
            self.put_record(2, &[needed.cache.as_slice()]);
        }
        if self.in_force.point_valid != needed.point_valid {
            self.put_record(3, &[&[u8::from(needed.point_valid)]]);
        }
        if self.in_force.own_key != needed.own_key {
            self.put_record(4, &[needed.own_key.as_slice()]);
        }
        if self.in_force.mic != needed.mic {
            self.put_record(5, &[needed.mic.as_slice()]);
        }
        if self.in_force.reply_length != needed.reply_length {
            self.put_record(6, &[&(needed.reply_length as u16).to_le_bytes()]);
        }
        self.in_force.clone_from(needed);
    }

    fn put_record(&mut self, tag: u8, pieces: &[&[u8]]) {
        let length: usize = pieces.iter().map(|piece| piece.len()).sum();
        self.file.put(&[tag]);
        self.file.put(&(length as u16).to_le_bytes());
        pieces.iter().for_each(|piece| self.file.put(piece));
    }
}

fn settings_value(settings: &Settings) -> [u8; 10] {
    let mut value = [0; 10];
    value[0] = u8::from(settings.without_pmk);
    value[1] = cipher_flags(settings);
    value[2..6].copy_from_slice(&settings.key_lifetime.0.to_le_bytes());
    value[6..10].copy_from_slice(&(settings.exchange_deadline.0 as u32).to_le_bytes());
    value
}

/// Bits 0 to 3 allow the ciphers 4, 8, 9 and 10, in a call log as in the archive.
pub fn cipher_flags(settings: &Settings) -> u8 {
    let ciphers = settings.ciphers.iter().enumerate();
    ciphers.fold(0, |flags, (bit, &allowed)| flags | u8::from(allowed) << bit)
}
