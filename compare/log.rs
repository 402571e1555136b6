//! `log SEED CALLS LOG EXPECTED`: writes a call log of so many generated calls to LOG, and to
//! EXPECTED the lines that the independent responder gives for it. Counts of the answers go to
//! standard error.

#![no_std]
#![no_main]

use shared::counts::Counts;
use shared::files::{fail, Arguments, File};
use shared::generator::Generator;
use shared::records::CallLog;
use shared::responder::Table;
use shared::sides::{Buffers, Line, Side};

fn run(seed: u64, calls: u64, log: &mut CallLog, expected: &mut File) -> Counts {
    let mut counts = Counts::none();
    let mut table = Table::empty();
    let mut generator = Generator::new(seed);
    let mut buffers = Buffers::new();
    for _ in 0..calls {
        let call = generator.next(&table);
        log.put(call);
        let told = table.make(call, &mut buffers);
        counts.count(&told);
        let line = Line {
            call,
            told,
            buffers: &buffers,
        };
        expected.print(format_args!("{}\n", line));
    }
    expected.print(format_args!("counted {}\n", counts.installed()));
    counts
}

/// # Safety
/// `strings` holds as many C strings as `count` says.
#[no_mangle]
pub unsafe extern "C" fn main(count: i32, strings: *const *const u8) -> i32 {
    let arguments = Arguments::new(count, strings);
    if arguments.count() != 4 {
        fail(format_args!("usage: log SEED CALLS LOG EXPECTED"));
    }
    let mut log = CallLog::to(arguments.text(3).create());
    let mut expected = arguments.text(4).create();
    let (seed, calls) = (arguments.number(1), arguments.number(2));
    let counts = run(seed, calls, &mut log, &mut expected);
    log.flush();
    expected.flush();
    let mut errors = File::errors();
    counts.print(&mut errors);
    errors.flush();
    0
}
