//! Files, arguments and the end of a program, by C's calls.

use core::fmt::{self, Display, Formatter, Write};

extern "C" {
    fn creat(path: *const u8, mode: u32) -> i32;
    fn write(descriptor: i32, octets: *const u8, count: usize) -> isize;
    fn exit(code: i32) -> !;
}

/// Ends the program with 1, and says why.
pub fn fail(reason: fmt::Arguments) -> ! {
    let mut errors = File::errors();
    errors.print(format_args!("{}\n", reason));
    errors.flush();
    // SAFETY: exit takes any number and does not come back.
    unsafe { exit(1) }
}

/// A file written through a buffer.
pub struct File {
    descriptor: i32,
    buffer: [u8; 4096],
    held: usize,
}

impl File {
    pub fn output() -> File {
        File::to(1)
    }

    pub fn errors() -> File {
        File::to(2)
    }

    fn to(descriptor: i32) -> File {
        File {
            descriptor,
            buffer: [0; 4096],
            held: 0,
        }
    }

    pub fn put(&mut self, octets: &[u8]) {
        if self.held + octets.len() > self.buffer.len() {
            self.flush();
        }
        if octets.len() > self.buffer.len() {
            self.write_all(octets);
        } else {
            self.buffer[self.held..self.held + octets.len()].copy_from_slice(octets);
            self.held += octets.len();
        }
    }

    pub fn flush(&mut self) {
        self.write_all(&self.buffer[..self.held]);
        self.held = 0;
    }

    pub fn print(&mut self, text: fmt::Arguments) {
        if self.write_fmt(text).is_err() {
            fail(format_args!("cannot format a line"));
        }
    }

    fn write_all(&self, mut octets: &[u8]) {
        while !octets.is_empty() {
            // SAFETY: the pointer and the count are of one slice.
            let written = unsafe { write(self.descriptor, octets.as_ptr(), octets.len()) };
            if written <= 0 {
                // SAFETY: exit takes any number and does not come back.
                unsafe { exit(2) }
            }
            octets = &octets[written as usize..];
        }
    }
}

impl Write for File {
    fn write_str(&mut self, text: &str) -> fmt::Result {
        self.put(text.as_bytes());
        Ok(())
    }
}

/// What `main` is given.
pub struct Arguments {
    strings: *const *const u8,
    count: usize,
}

impl Arguments {
    /// # Safety
    /// `strings` holds as many C strings as `count` says, and the first is the program's name.
    pub unsafe fn new(count: i32, strings: *const *const u8) -> Arguments {
        Arguments {
            strings,
            count: count as usize,
        }
    }

    /// How many there are after the program's name.
    pub fn count(&self) -> usize {
        self.count - 1
    }

    /// The first after the program's name is 1.
    pub fn text(&self, place: usize) -> Text {
        if place >= self.count {
            fail(format_args!("an argument is missing"));
        }
        // SAFETY: `new` was promised so many C strings.
        Text(unsafe { *self.strings.add(place) })
    }

    pub fn number(&self, place: usize) -> u64 {
        let text = self.text(place);
        let digits = core::str::from_utf8(text.octets()).ok();
        match digits.and_then(|digits| digits.parse().ok()) {
            Some(number) => number,
            None => fail(format_args!("{} is not a decimal number", text)),
        }
    }
}

/// A C string.
#[derive(Clone, Copy)]
pub struct Text(*const u8);

impl Text {
    pub fn create(self) -> File {
        // SAFETY: a C string.
        let descriptor = unsafe { creat(self.0, 0o644) };
        if descriptor < 0 {
            fail(format_args!("cannot create {}", self));
        }
        File::to(descriptor)
    }

    pub fn octets(&self) -> &[u8] {
        // SAFETY: read no further than the zero octet that a C string ends in.
        let length = (0..).take_while(|&place| unsafe { *self.0.add(place) } != 0);
        let length = length.count();
        // SAFETY: so many octets stand before the zero.
        unsafe { core::slice::from_raw_parts(self.0, length) }
    }
}

impl Display for Text {
    fn fmt(&self, out: &mut Formatter) -> fmt::Result {
        out.write_str(core::str::from_utf8(self.octets()).unwrap_or("?"))
    }
}
