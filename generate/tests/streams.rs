//! The second program's player on generated streams.

use generate::Generator;
use second::play;
use std::io::{self, Read};

fn played(input: impl Read) -> String {
    let mut output = Vec::new();
    play(input, &mut output);
    String::from_utf8(output).unwrap()
}

/// Gives one byte at a time, with an interruption before each.
struct Drip<'a>(&'a [u8], bool);

impl Read for Drip<'_> {
    fn read(&mut self, into: &mut [u8]) -> io::Result<usize> {
        self.1 = !self.1;
        if self.1 {
            return Err(io::ErrorKind::Interrupted.into());
        }
        let Some((first, rest)) = self.0.split_first() else {
            return Ok(0);
        };
        into[0] = *first;
        self.0 = rest;
        Ok(1)
    }
}

#[test]
fn byte_by_byte_gives_the_same_lines() {
    let mut generator = Generator::new(3);
    for _ in 0..100 {
        let bytes = generator.stream().bytes;
        assert_eq!(played(Drip(&bytes, false)), played(&bytes[..]));
    }
}
