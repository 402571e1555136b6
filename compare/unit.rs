//! The proved unit: its archive as a host links it, and a host that keeps its state.

use crate::records::cipher_flags;
use crate::responder::{Address, Answer, Arrival, Phase, Record, Seconds, Tu};
use crate::sides::{Place, Received, Side};
use core::mem::{size_of, MaybeUninit};

#[repr(C)]
#[derive(Clone, Copy)]
struct HostRecord {
    address: [u8; 6],
    has_pmkid: u8,
    pmkid: [u8; 16],
    phase: u8,
    cipher: u8,
    akm: u8,
    unused: [u8; 2],
    lifetime_seconds: u32,
    until_tu: u64,
}

#[repr(C)]
#[derive(Clone, Copy)]
struct State {
    records: [HostRecord; 16],
    latest_tu: u64,
}

#[repr(C)]
#[derive(Clone, Copy)]
struct HostSettings {
    allow_pmkless: u8,
    allow_ciphers: u8,
    lifetime_seconds: u32,
    deadline_tu: u64,
}

/// What a receive brings, beside its slices.
#[repr(C)]
#[derive(Clone, Copy)]
pub struct HostCall {
    settings: HostSettings,
    reading_tu: u64,
    address: [u8; 6],
    point_valid: u8,
}

#[repr(C)]
struct ReceiveResult {
    answer: u8,
    status: u16,
    length: usize,
}

#[repr(C)]
struct KeyPlace {
    start: usize,
    length: usize,
}

/// What a look-up tells: its answer, and the record that it wrote.
pub struct LookedUp {
    pub answer: u8,
    shown: HostRecord,
}

const _: () = assert!(size_of::<HostRecord>() == 40 && size_of::<State>() == 648);
const _: () = assert!(size_of::<HostCall>() == 32 && size_of::<ReceiveResult>() == 16);

// A slice crosses as two words, its pointer and its length.
extern "C" {
    fn galebeacon_empty(state: *mut State);
    fn galebeacon_receive(
        state: &mut State,
        call: HostCall,
        cache: *const u8,
        cache_length: usize,
        key: *const u8,
        key_length: usize,
        mic: *const u8,
        mic_length: usize,
        body: *const u8,
        body_length: usize,
        reply: *mut u8,
        reply_length: usize,
    ) -> ReceiveResult;
    fn galebeacon_look_up(
        state: &State,
        address: &[u8; 6],
        reading_tu: u64,
        shown: *mut HostRecord,
    ) -> u8;
    fn galebeacon_remove(state: &mut State, address: &[u8; 6], reading_tu: u64) -> u8;
    fn galebeacon_show_key(body: *const u8, body_length: usize) -> KeyPlace;
    fn galebeacon_zero_mic(
        body: *const u8,
        body_length: usize,
        out: *mut u8,
        out_length: usize,
    ) -> u8;
    fn galebeacon_set_mic(
        body: *mut u8,
        body_length: usize,
        mic: *const u8,
        mic_length: usize,
    ) -> u8;
}

/// A host of the unit.
#[derive(Clone, Copy)]
pub struct Unit {
    state: State,
}

impl HostCall {
    pub fn of(arrival: &Arrival) -> HostCall {
        let settings = arrival.settings;
        HostCall {
            settings: HostSettings {
                allow_pmkless: u8::from(settings.without_pmk),
                allow_ciphers: cipher_flags(settings),
                lifetime_seconds: settings.key_lifetime.0,
                deadline_tu: settings.exchange_deadline.0,
            },
            reading_tu: arrival.now.0,
            address: arrival.address,
            point_valid: u8::from(arrival.lent.point_valid),
        }
    }
}

impl HostRecord {
    fn record(&self) -> Record {
        let time = Tu(self.until_tu);
        Record {
            address: self.address,
            phase: match self.phase {
                0 => Phase::Waiting { deadline: time },
                _ => Phase::Installed { end: time },
            },
            cipher: self.cipher,
            akm: self.akm,
            pmkid: match self.has_pmkid {
                0 => None,
                _ => Some(self.pmkid),
            },
            lifetime: Seconds(self.lifetime_seconds),
        }
    }
}

impl Unit {
    pub fn new() -> Unit {
        let mut state = MaybeUninit::uninit();
        // SAFETY: every octet of the state is written.
        let state = unsafe {
            galebeacon_empty(state.as_mut_ptr());
            state.assume_init()
        };
        Unit { state }
    }

    /// The slices are the arrival's; the call is what `HostCall::of` makes of the rest.
    pub fn take(&mut self, call: HostCall, arrival: &Arrival, reply: &mut [u8]) -> Received {
        let (cache, body) = (arrival.cache, arrival.body);
        let (key, mic) = (arrival.lent.own_key, arrival.lent.mic);
        // SAFETY: each pointer and length are of one slice, and only `reply` and the state are written.
        let result = unsafe {
            galebeacon_receive(
                &mut self.state,
                call,
                cache.as_ptr(),
                cache.len(),
                key.as_ptr(),
                key.len(),
                mic.as_ptr(),
                mic.len(),
                body.as_ptr(),
                body.len(),
                reply.as_mut_ptr(),
                reply.len(),
            )
        };
        Received {
            answer: result.answer,
            status: result.status,
            length: result.length,
        }
    }

    pub fn look(&self, now: Tu, address: &Address) -> LookedUp {
        let mut shown = MaybeUninit::uninit();
        // SAFETY: the address is six octets, and every octet of the record is written, beside any answer.
        unsafe {
            LookedUp {
                answer: galebeacon_look_up(&self.state, address, now.0, shown.as_mut_ptr()),
                shown: shown.assume_init(),
            }
        }
    }
}

impl Side for Unit {
    fn empty(&mut self) {
        *self = Unit::new();
    }

    fn receive(&mut self, arrival: &Arrival, reply: &mut [u8]) -> Received {
        self.take(HostCall::of(arrival), arrival, reply)
    }

    fn look_up(&self, now: Tu, address: Address) -> Result<Record, u8> {
        let result = self.look(now, &address);
        match result.answer == Answer::Found as u8 {
            true => Ok(result.shown.record()),
            false => Err(result.answer),
        }
    }

    fn remove(&mut self, now: Tu, address: Address) -> u8 {
        // SAFETY: the address is six octets.
        unsafe { galebeacon_remove(&mut self.state, &address, now.0) }
    }

    fn show_key(&self, body: &[u8]) -> Place {
        // SAFETY: the pointer and the length are of one slice.
        let place = unsafe { galebeacon_show_key(body.as_ptr(), body.len()) };
        Place {
            start: place.start,
            length: place.length,
        }
    }

    fn zero_mic(&self, body: &[u8], second: &mut [u8]) -> u8 {
        let (out, room) = (second.as_mut_ptr(), second.len());
        // SAFETY: each pointer and length are of one slice, and only `second` is written.
        unsafe { galebeacon_zero_mic(body.as_ptr(), body.len(), out, room) }
    }

    fn set_mic(&self, body: &mut [u8], mic: &[u8]) -> u8 {
        let (start, length) = (body.as_mut_ptr(), body.len());
        // SAFETY: each pointer and length are of one slice, and only `body` is written.
        unsafe { galebeacon_set_mic(start, length, mic.as_ptr(), mic.len()) }
    }
}
