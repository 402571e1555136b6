//! What the programs of this folder share. They use nothing but `core` and C's own calls.

#![no_std]

pub mod counts;
pub mod files;
pub mod generator;
pub mod records;
pub mod responder;
pub mod sides;
pub mod unit;

#[panic_handler]
fn panicked(info: &core::panic::PanicInfo) -> ! {
    files::fail(format_args!("{}", info))
}
