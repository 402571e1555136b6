//! Measures the proved unit against the independent responder on the same inputs.
//! `bench time` prints a table of nanoseconds. `bench make CASE SIDE CALLS` makes calls and
//! prints nothing, for instructions to be counted from outside: case 0 makes none, side 0 is the
//! unit and side 1 the responder. `bench table WHAT UNIT RUST UNIT RUST ..` prints the table of
//! figures so counted.

#![no_std]
#![no_main]

use shared::files::{fail, Arguments, File};
use shared::generator::{Call, Octets, Operation, Setup};
use shared::responder::{self, Address, Answer, Arrival, Seconds, Settings, Table, Tu};
use shared::sides::{Buffers, Side};
use shared::unit::{HostCall, Unit};

const CASES: [Case; 8] = [
    Case {
        name: "first frame accepted, its PMKID the first of 64 in the cache",
        answer: Answer::FirstAccepted,
        body: Body::First { akm: 8, record: 0 },
        ..RECEIVE
    },
    Case {
        name: "first frame accepted, its PMKID the last of 64 in the cache",
        answer: Answer::FirstAccepted,
        body: Body::First { akm: 8, record: 63 },
        ..RECEIVE
    },
    Case {
        name: "first frame refused with 43, 64 in the cache",
        answer: Answer::FirstRefused,
        body: Body::First { akm: 7, record: 0 },
        ..RECEIVE
    },
    Case {
        name: "third frame accepted, 64 in the cache",
        ..RECEIVE
    },
    Case {
        name: "third frame accepted, the cache empty",
        cached: 0,
        ..RECEIVE
    },
    Case {
        name: "receive answered 1, for its clock",
        answer: Answer::Clock,
        now: Tu(NOW.0 - 1),
        ..RECEIVE
    },
    Case {
        name: "look-up of the last of sixteen records",
        answer: Answer::Found,
        operation: Operation::LookUp,
        ..RECEIVE
    },
    Case {
        name: "walk of 509 elements, none a MIC to zero",
        answer: Answer::MicRefused,
        operation: Operation::ZeroMic,
        body: Body::ManyElements,
        ..RECEIVE
    },
];

/// What most cases have.
const RECEIVE: Case = Case {
    name: "",
    answer: Answer::Installed,
    operation: Operation::Receive,
    now: NOW,
    cached: 64,
    body: Body::Third,
};

struct Case {
    name: &'static str,
    answer: Answer,
    operation: Operation,
    now: Tu,
    /// Records in the cache.
    cached: u8,
    body: Body,
}

#[derive(Clone, Copy)]
enum Body {
    /// With the PMKID of this record of the cache.
    First {
        akm: u8,
        record: u8,
    },
    Third,
    ManyElements,
}

const NOW: Tu = Tu(1_000_000);
const MIC: [u8; 16] = [0xaa; 16];
const STATION: Address = [2, 0, 0, 0, 0, 16];

fn pmkid(record: u8) -> [u8; 16] {
    let mut pmkid = [0x5a; 16];
    pmkid[15] = record;
    pmkid
}

fn setup(cached: u8) -> Setup {
    let mut setup = Setup::initial();
    setup.settings = Settings {
        without_pmk: true,
        ciphers: [true; 4],
        key_lifetime: Seconds(3600),
        exchange_deadline: Tu(1000),
    };
    for record in 0..cached {
        setup.cache.put(&[0x31, 25, 0]);
        setup.cache.put(&pmkid(record));
        setup.cache.put(&[8]);
        setup.cache.put(&(NOW.0 + 1).to_le_bytes());
    }
    setup.point_valid = true;
    setup.own_key.put(&[2; 33]);
    setup.mic.put(&MIC);
    setup
}

impl Body {
    fn octets(self) -> Octets<4096> {
        let mut body = Octets::new();
        match self {
            Body::First { akm, record } => {
                body.put(&[7, 0, 1, 0, 0, 0, 48, 42, 1, 0, 0x00, 0x0f, 0xac, 7]);
                body.put(&[1, 0, 0x00, 0x0f, 0xac, 4, 1, 0, 0x00, 0x0f, 0xac, akm]);
                body.put(&[0xc0, 0, 1, 0]);
                body.put(&pmkid(record));
                body.put(&[0x00, 0x0f, 0xac, 7, 255, 39, 100, 2, 0, 19, 0, 33]);
                body.put(&[3; 33]);
            }
            Body::Third => {
                body.put(&[7, 0, 3, 0, 0, 0, 255, 3, 100, 0, 0, 140, 16]);
                body.put(&MIC);
            }
            Body::ManyElements => {
                body.put(&[7, 0, 3, 0, 0, 0]);
                (0..509).for_each(|_| body.put(&[221, 0]));
            }
        }
        body
    }
}

impl Case {
    fn call(&self) -> Call {
        Call {
            operation: self.operation,
            setup: setup(self.cached),
            now: self.now,
            address: STATION,
            body: self.body.octets(),
            second_length: 2048,
        }
    }

    /// Fifteen peers wait, and for all but a first frame this peer is the sixteenth.
    fn fill<S: Side>(&self, side: &mut S) {
        let mut first = CASES[0].call();
        let others = match self.body {
            Body::First { .. } => 1..=15,
            _ => 1..=16,
        };
        for number in others {
            first.address[5] = number;
            let received = side.receive(&first.arrival(), &mut [0; 300]);
            if received.answer != Answer::FirstAccepted as u8 {
                fail(format_args!("peer {} is not accepted", number));
            }
        }
    }
}

/// One side, ready to make the call of a case again and again.
trait Repeated {
    /// Brings the table back to what it was before the call.
    fn reset(&mut self);
    fn make(&mut self) -> u8;
}

struct OfUnit<'a> {
    before: Unit,
    unit: Unit,
    operation: Operation,
    host_call: HostCall,
    arrival: Arrival<'a>,
    buffers: Buffers,
}

impl<'a> OfUnit<'a> {
    fn new(case: &Case, call: &'a Call) -> Self {
        let mut before = Unit::new();
        case.fill(&mut before);
        OfUnit {
            before,
            unit: before,
            operation: case.operation,
            host_call: HostCall::of(&call.arrival()),
            arrival: call.arrival(),
            buffers: Buffers::new(),
        }
    }
}

impl Repeated for OfUnit<'_> {
    fn reset(&mut self) {
        self.unit = self.before;
    }

    fn make(&mut self) -> u8 {
        let arrival = &self.arrival;
        match self.operation {
            Operation::LookUp => self.unit.look(arrival.now, &arrival.address).answer,
            Operation::ZeroMic => self.unit.zero_mic(arrival.body, &mut self.buffers.second),
            _ => {
                let reply = &mut self.buffers.reply;
                self.unit.take(self.host_call, arrival, reply).answer
            }
        }
    }
}

struct OfResponder<'a> {
    before: Table,
    table: Table,
    operation: Operation,
    arrival: Arrival<'a>,
    buffers: Buffers,
}

impl<'a> OfResponder<'a> {
    fn new(case: &Case, call: &'a Call) -> Self {
        let mut before = Table::empty();
        case.fill(&mut before);
        OfResponder {
            table: before.clone(),
            before,
            operation: case.operation,
            arrival: call.arrival(),
            buffers: Buffers::new(),
        }
    }
}

impl Repeated for OfResponder<'_> {
    fn reset(&mut self) {
        self.table.clone_from(&self.before);
    }

    fn make(&mut self) -> u8 {
        let arrival = &self.arrival;
        let answer = match self.operation {
            Operation::LookUp => match self.table.look_up(arrival.now, arrival.address) {
                Ok(_) => Answer::Found,
                Err(answer) => answer,
            },
            Operation::ZeroMic => responder::zero_mic(arrival.body, &mut self.buffers.second),
            _ => {
                let reply = &mut self.buffers.reply;
                Table::receive(&mut self.table, arrival, reply).answer
            }
        };
        answer as u8
    }
}

/// Hides from the compiler which side it is, and that it is the same each time.
fn hidden<'a, 'b>(side: &'b mut (dyn Repeated + 'a)) -> &'b mut (dyn Repeated + 'a) {
    let mut pointer: *mut (dyn Repeated + 'a) = side;
    // SAFETY: the reference that was handed in, read back.
    unsafe { &mut *core::ptr::read_volatile(&mut pointer) }
}

#[inline(never)]
fn only_reset(side: &mut dyn Repeated, calls: u64) {
    (0..calls).for_each(|_| hidden(side).reset());
}

#[inline(never)]
fn reset_and_make(side: &mut dyn Repeated, calls: u64, answer: Answer) {
    for _ in 0..calls {
        hidden(side).reset();
        if hidden(side).make() != answer as u8 {
            fail(format_args!("a call is not answered {}", answer as u8));
        }
    }
}

#[repr(C)]
struct Time {
    seconds: i64,
    nanoseconds: i64,
}

extern "C" {
    fn clock_gettime(clock: i32, time: &mut Time) -> i32;
}

/// Nanoseconds of C's monotonic clock.
fn clock() -> u64 {
    const MONOTONIC: i32 = 1;
    let mut time = Time {
        seconds: 0,
        nanoseconds: 0,
    };
    // SAFETY: the struct is C's timespec on x86-64.
    if unsafe { clock_gettime(MONOTONIC, &mut time) } != 0 {
        fail(format_args!("there is no monotonic clock"));
    }
    time.seconds as u64 * 1_000_000_000 + time.nanoseconds as u64
}

const ROUNDS: usize = 25;
const CALLS: u64 = 20_000;

/// The best of the rounds of each side, the unit's first, without what resetting takes.
fn time_sides(case: &Case) -> [f64; 2] {
    let call = case.call();
    let unit: &mut dyn Repeated = &mut OfUnit::new(case, &call);
    let table: &mut dyn Repeated = &mut OfResponder::new(case, &call);
    let mut sides = [unit, table];
    let mut best = [[u64::MAX; 2]; 2];
    for _ in 0..ROUNDS {
        for (side, best) in sides.iter_mut().zip(&mut best) {
            let start = clock();
            only_reset(*side, CALLS);
            let reset = clock();
            reset_and_make(*side, CALLS, case.answer);
            let made = clock();
            *best = [best[0].min(reset - start), best[1].min(made - reset)];
        }
    }
    best.map(|[reset, both]| both.saturating_sub(reset) as f64 / CALLS as f64)
}

fn print_heading(out: &mut File, what: &str) {
    out.print(format_args!(
        "| {} a call | unit | Rust | ratio |\n|---|--:|--:|--:|\n",
        what
    ));
}

fn print_row(out: &mut File, case: &Case, [unit, rust]: [f64; 2]) {
    out.print(format_args!(
        "| {} | {:.0} | {:.0} | {:.2} |\n",
        case.name,
        unit,
        rust,
        unit / rust
    ));
    out.flush();
}

fn print_times() {
    let mut out = File::output();
    print_heading(&mut out, "nanoseconds");
    for case in &CASES {
        print_row(&mut out, case, time_sides(case));
    }
}

fn make(case: usize, side: u64, calls: u64) {
    let chosen = CASES.get(case.saturating_sub(1));
    let chosen = chosen.unwrap_or_else(|| fail(format_args!("there is no case {}", case)));
    let call = chosen.call();
    let unit: &mut dyn Repeated = &mut OfUnit::new(chosen, &call);
    let table: &mut dyn Repeated = &mut OfResponder::new(chosen, &call);
    let side = if side == 0 { unit } else { table };
    match case {
        0 => only_reset(side, calls),
        _ => reset_and_make(side, calls, chosen.answer),
    }
}

fn print_figures(arguments: &Arguments) {
    if arguments.count() != 2 + 2 * CASES.len() {
        fail(format_args!("two figures are wanted for each case"));
    }
    let mut out = File::output();
    let what = arguments.text(2);
    print_heading(&mut out, core::str::from_utf8(what.octets()).unwrap_or("?"));
    for (number, case) in CASES.iter().enumerate() {
        let figure = |side| arguments.number(3 + 2 * number + side) as f64;
        print_row(&mut out, case, [figure(0), figure(1)]);
    }
}

/// # Safety
/// `strings` holds as many C strings as `count` says.
#[no_mangle]
pub unsafe extern "C" fn main(count: i32, strings: *const *const u8) -> i32 {
    let arguments = Arguments::new(count, strings);
    match arguments.text(1).octets() {
        b"time" => print_times(),
        b"make" => make(
            arguments.number(2) as usize,
            arguments.number(3),
            arguments.number(4),
        ),
        b"table" => print_figures(&arguments),
        _ => fail(format_args!("usage: bench time | make | table")),
    }
    0
}
