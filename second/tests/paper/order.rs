//! The order of the refusals: a request that every row would refuse is mended
//! row by row, from the top.

use crate::table::*;

/// A request with all faults, of which the given ones have been mended.
struct Ladder {
    head: String,
    body: String,
    clock: u64,
}

impl Ladder {
    fn mend(&mut self, wrong: &str, right: &str) {
        assert!(self.head.contains(wrong), "{}", wrong);
        self.head = self.head.replace(wrong, right);
    }

    fn try_on(&self, table: &mut Table) -> String {
        table.whole(self.clock, &self.head, self.body.as_bytes())
    }
}

/// cy has no tag left, success at 100 behind it, and eight live publications.
fn table_with_cy() -> Table {
    let mut table = Table::new();
    table.add("cy", 0, u32::MAX - 9);
    let lines = format!("Event: presence\nExpires: 900\n{}", PIDF);
    for _ in 0..8 {
        assert!(table.to("cy", 100, &lines, "x").starts_with("200"));
    }
    table.bench.records[2].spent = u32::MAX;
    table
}

const ALL_WRONG: &str = "ACK nobody SIP/2.0
Via: SIP/2.0/UDP pua
From: <cy>;tag=1
To: <cy
Call-ID: 1
CSeq: x
Content-Length: 4000
Event: nothing
SIP-If-Match: a b
Expires: 59
Content-Type: text/plain

";

#[test]
fn each_row_comes_before_those_below_it() {
    let mut table = table_with_cy();
    let mut ladder = Ladder {
        head: ALL_WRONG.to_string(),
        body: "x".repeat(513),
        clock: u64::MAX,
    };
    assert_eq!(ladder.try_on(&mut table), "none 4");
    ladder.clock = 99;
    assert_eq!(ladder.try_on(&mut table), "none 6");
    ladder.mend("To: <cy\n", "To: <cy>\n");
    assert_eq!(ladder.try_on(&mut table), "none 6");
    ladder.mend("ACK", "NONE");
    assert_eq!(ladder.try_on(&mut table), "405 - -");
    ladder.mend("NONE", "PUBLISH");
    assert_eq!(ladder.try_on(&mut table), "400 - -");
    ladder.mend("CSeq: x", "CSeq: 1 PUBLISH");
    assert_eq!(ladder.try_on(&mut table), "400 - -");
    ladder.mend("Content-Length: 4000\n", "");
    assert_eq!(ladder.try_on(&mut table), "404 - -");
    ladder.mend("nobody", "cy");
    assert_eq!(ladder.try_on(&mut table), "489 - -");
    ladder.mend("Event: nothing", "Event: presence");
    assert_eq!(ladder.try_on(&mut table), "500 - -");
    ladder.clock = 100;
    assert_eq!(ladder.try_on(&mut table), "400 - -");
    ladder.mend("a b", "ab");
    lower_rows(&mut table, ladder);
}

fn lower_rows(table: &mut Table, mut ladder: Ladder) {
    assert_eq!(ladder.try_on(table), "412 - -");
    ladder.mend("SIP-If-Match: ab\n", "");
    assert_eq!(ladder.try_on(table), "423 - 60");
    ladder.mend("Expires: 59", "Expires: 60");
    assert_eq!(ladder.try_on(table), "413 - -");
    ladder.body.pop();
    assert_eq!(ladder.try_on(table), "415 - -");
    ladder.body.clear();
    assert_eq!(ladder.try_on(table), "400 - -");
    ladder.body.push('x');
    ladder.mend("text/plain", "application/pidf+xml");
    assert_eq!(ladder.try_on(table), "500 - -");
    table.bench.records[2].spent -= 1;
    assert_eq!(ladder.try_on(table), "503 - 900");
    ladder.clock = 1000;
    assert_eq!(ladder.try_on(table), "200 61c88647 60");
}
