//! `compare SEED CALLS LOG`: makes the same generated calls of the proved unit and of the
//! independent responder, and compares what they tell, every octet of every buffer, and what
//! look-ups show afterwards. At the first difference it writes the calls since the last empty
//! table to LOG, and ends with 1.

#![no_std]
#![no_main]

use shared::counts::Counts;
use shared::files::{fail, Arguments, File, Text};
use shared::generator::{addresses, Generator, Operation};
use shared::records::CallLog;
use shared::responder::{Address, Table, Tu, LAST_READING};
use shared::sides::{Buffers, Line, Side, Told};
use shared::unit::Unit;

struct Comparison {
    seed: u64,
    generator: Generator,
    calls: u64,
    look_ups: u64,
    counts: Counts,
    unit: Unit,
    table: Table,
    unit_buffers: Buffers,
    table_buffers: Buffers,
    since_empty: SinceEmpty,
}

/// The generator as it stood after the last empty table, and how many calls were made then.
struct SinceEmpty {
    generator: Generator,
    calls: u64,
}

/// What the unit and the responder told; of a call, or of a look-up after it.
struct Difference {
    look_up: Option<(Tu, Address)>,
    unit: Told,
    table: Told,
}

impl Comparison {
    fn new(seed: u64) -> Comparison {
        let generator = Generator::new(seed);
        Comparison {
            seed,
            generator: generator.clone(),
            calls: 0,
            look_ups: 0,
            counts: Counts::none(),
            unit: Unit::new(),
            table: Table::empty(),
            unit_buffers: Buffers::new(),
            table_buffers: Buffers::new(),
            since_empty: SinceEmpty {
                generator,
                calls: 0,
            },
        }
    }

    fn make_next(&mut self) -> Result<(), Difference> {
        self.calls += 1;
        let noise = self.seed ^ self.calls;
        self.unit_buffers.fill_with_noise(noise);
        self.table_buffers.fill_with_noise(noise);
        let call = self.generator.next(&self.table);
        let unit = self.unit.make(call, &mut self.unit_buffers);
        let table = self.table.make(call, &mut self.table_buffers);
        let operation = call.operation;
        if operation == Operation::Empty {
            self.since_empty = SinceEmpty {
                generator: self.generator.clone(),
                calls: self.calls,
            };
        }
        if unit != table || self.unit_buffers != self.table_buffers {
            return Err(Difference {
                look_up: None,
                unit,
                table,
            });
        }
        self.counts.count(&table);
        match operation {
            Operation::Receive | Operation::Remove | Operation::Empty => self.look_around(),
            _ => Ok(()),
        }
    }

    /// Looks up every address, at the latest reading and beside its record's time; and one
    /// address at the edges of the clock.
    fn look_around(&mut self) -> Result<(), Difference> {
        let latest = self.table.latest();
        for address in addresses() {
            self.look_up(latest, address)?;
            let found = Table::look_up(&self.table, latest, address);
            if let Ok(time) = found.map(|record| record.time().0) {
                for reading in time - 1..=time + 1 {
                    self.look_up(Tu(reading), address)?;
                }
            }
        }
        let before = latest.0.saturating_sub(1);
        for reading in [0, before, LAST_READING.0, LAST_READING.0 + 1, u64::MAX] {
            self.look_up(Tu(reading), addresses()[0])?;
        }
        Ok(())
    }

    fn look_up(&mut self, now: Tu, address: Address) -> Result<(), Difference> {
        self.look_ups += 1;
        let unit = Side::look_up(&self.unit, now, address);
        let table = Side::look_up(&self.table, now, address);
        if unit == table {
            return Ok(());
        }
        Err(Difference {
            look_up: Some((now, address)),
            unit: Told::LookedUp(unit),
            table: Told::LookedUp(table),
        })
    }
}

/// What is said and written of a difference.
impl Comparison {
    fn report(&self, difference: &Difference, log: Text) {
        let since = self.calls - self.since_empty.calls;
        let mut out = File::output();
        out.print(format_args!(
            "difference at call {} of seed {}, {} calls after an empty table\n",
            self.calls, self.seed, since
        ));
        if let Some((now, address)) = difference.look_up {
            out.print(format_args!(
                "look-up after it at reading {} of {:02x?}\n",
                now.0, address
            ));
        }
        let line = |told, buffers| Line {
            call: &self.generator.call,
            told,
            buffers,
        };
        let unit = line(difference.unit, &self.unit_buffers);
        let table = line(difference.table, &self.table_buffers);
        out.print(format_args!("unit:      {}\nresponder: {}\n", unit, table));
        let (unit, table) = (&self.unit_buffers, &self.table_buffers);
        print_octets(&mut out, "reply", &unit.reply, &table.reply);
        print_octets(&mut out, "second buffer", &unit.second, &table.second);
        print_octets(&mut out, "body", &unit.body, &table.body);
        self.write_log(difference, CallLog::to(log.create()));
        out.print(format_args!(
            "the calls since the empty table are in {}\n",
            log
        ));
        out.flush();
    }

    /// Makes the calls since the empty table once more, of the responder alone.
    fn write_log(&self, difference: &Difference, mut log: CallLog) {
        let mut generator = self.since_empty.generator.clone();
        let mut table = Table::empty();
        let mut buffers = Buffers::new();
        for _ in self.since_empty.calls..self.calls {
            let call = generator.next(&table);
            log.put(call);
            table.make(call, &mut buffers);
        }
        if let Some((now, address)) = difference.look_up {
            log.put_look_up(now, address);
        }
        log.flush();
    }
}

/// The first octet of a buffer that differs, if any does.
fn print_octets(out: &mut File, name: &str, unit: &[u8], table: &[u8]) {
    let differs = unit.iter().zip(table).position(|(one, other)| one != other);
    if let Some(place) = differs {
        let (one, other) = (unit[place], table[place]);
        out.print(format_args!(
            "{} differs from octet {} on: unit {:02x}, responder {:02x}\n",
            name, place, one, other
        ));
    }
}

/// # Safety
/// `strings` holds as many C strings as `count` says.
#[no_mangle]
pub unsafe extern "C" fn main(count: i32, strings: *const *const u8) -> i32 {
    let arguments = Arguments::new(count, strings);
    if arguments.count() != 3 {
        fail(format_args!("usage: compare SEED CALLS LOG"));
    }
    let (seed, calls) = (arguments.number(1), arguments.number(2));
    let mut comparison = Comparison::new(seed);
    let mut out = File::output();
    out.print(format_args!("seed {}\n", seed));
    out.flush();
    for _ in 0..calls {
        if let Err(difference) = comparison.make_next() {
            comparison.report(&difference, arguments.text(3));
            return 1;
        }
    }
    comparison.counts.print(&mut out);
    out.print(format_args!(
        "{} look-ups after the calls\n",
        comparison.look_ups
    ));
    out.print(format_args!("0 differences in {} calls\n", calls));
    out.flush();
    0
}
