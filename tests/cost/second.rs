//! The second program on the inputs of the program that is measured (probe.source), for the figures beside ours in docs/COST.md.

use second::handle::handle;
use second::table::{add, open, Record, PART_SIZE};
use std::io::{self, Read, Write};

fn number(bytes: &[u8]) -> u64 {
    bytes.iter().fold(0, |v, b| v * 256 + u64::from(*b))
}

fn main() -> io::Result<()> {
    let mut input = Vec::new();
    io::stdin().read_to_end(&mut input)?;
    let lent = usize::from(input[0]);
    let mut records = vec![Record::ZERO; lent];
    let mut store = vec![0; PART_SIZE * lent];
    let mut answer = vec![0; 4608];
    open(&mut records, &mut store);
    let (mut rest, mut length) = (&input[1..], 0);
    while rest.len() >= 11 {
        let n = number(&rest[..2]) as usize;
        let (kind, clock, payload) = (rest[2], number(&rest[3..11]), &rest[11..11 + n]);
        match kind {
            0 => {
                add(&mut records, &mut store, 1000, 0, payload);
            }
            1 => length = handle(&mut records, &mut store, clock, payload, 1, &mut answer).map_or(0, |w| w.length),
            _ => (),
        }
        rest = &rest[11 + n..];
    }
    io::stdout().write_all(&answer[..length])
}
