//! The lives listing: what comes of each line, and what it leaves.

use second::life::{Life, Lives};
use second::lives::{happening_text, print_lives};
use second::script_in::{Publication, ScriptLine};
use second::script_out::{begin_bytes, publication_bytes, show_bytes};
use second::table::{Record, Slot};
use second::text::{eight_hex_digits, hex};

const PRESENCE: u8 = 0;
const SUMMARY: u8 = 1;
const DIALOG: u8 = 2;

/// A life told line by line.
struct Tale {
    lives: Lives,
}

impl Tale {
    fn begin(start: u32, spent: u32) -> Tale {
        let mut lives = Lives::default();
        lives.run(&ScriptLine::Begin { start, spent });
        Tale { lives }
    }

    fn life(&self) -> &Life {
        self.lives.life.as_ref().unwrap()
    }

    fn record(&self) -> &Record {
        self.life().record()
    }

    fn slot(&self, k: usize) -> Slot {
        self.record().slots[k]
    }

    fn publish(&mut self, clock: u64, event: u8, granted: u32, tag: &str, body: &str) -> String {
        let line = ScriptLine::Publish(asked(clock, event, granted, tag, body));
        let before = self.lives.life.clone();
        let said = happening_text(&self.lives.run(&line));
        assert_eq!(
            said.starts_with("gives"),
            self.lives.life != before,
            "{}",
            said
        );
        assert!(self.life().is_sound());
        said
    }

    fn shows(&mut self, clock: u64, event: u8) -> String {
        happening_text(&self.lives.run(&ScriptLine::Show { clock, event }))
    }

    /// The tag that a slot has now.
    fn tag(&self, k: usize) -> String {
        String::from_utf8(eight_hex_digits(self.slot(k).tag).to_vec()).unwrap()
    }
}

fn asked(clock: u64, event: u8, granted: u32, tag: &str, body: &str) -> Publication {
    Publication {
        clock,
        package: usize::from(event),
        granted,
        token: tag.as_bytes().to_vec(),
        body: body.as_bytes().to_vec(),
    }
}

fn listing(lines: &[Vec<u8>]) -> String {
    let input: String = lines
        .iter()
        .map(|line| format!("{}\n", hex(line)))
        .collect();
    listing_of(input.as_bytes())
}

fn listing_of(input: &[u8]) -> String {
    let mut printed = Vec::new();
    print_lives(&mut &input[..], &mut printed).unwrap();
    String::from_utf8(printed).unwrap()
}

#[test]
fn the_listing_byte_by_byte() {
    let lines = [
        show_bytes(0, 0),
        begin_bytes(0xffff_ffff, 0),
        publication_bytes(&asked(100, PRESENCE, 60, "", "a")),
        publication_bytes(&asked(99, PRESENCE, 60, "", "a")),
        publication_bytes(&asked(159, PRESENCE, 0, "9e3779b8", "")),
        vec![3],
        show_bytes(u64::MAX, 255),
    ];
    let expected = "1 bad
2 begins
  sound 1
  record 0 616e6e ffffffff 0 0 00
  part 0 76efddc5
3 gives 9e3779b8 8
  sound 1
  record 0 616e6e ffffffff 1 100 01
  slot 0 0 0 9e3779b8 160 1 1
  part 0 4aad9da4
4 back
  sound 1
  record 0 616e6e ffffffff 1 100 01
  slot 0 0 0 9e3779b8 160 1 1
  part 0 4aad9da4
5 gives 3c6ef371 0
  sound 1
  record 0 616e6e ffffffff 2 159 00
  part 0 76efddc5
6 bad
7 shows 8
  sound 1
  record 0 616e6e ffffffff 2 159 00
  part 0 76efddc5
";
    assert_eq!(listing(&lines), expected);
}

#[test]
fn lines_and_their_ends() {
    assert_eq!(listing_of(b""), "");
    assert_eq!(listing_of(b"\n"), "1 bad\n");
    let begun = "begins\n  sound 1\n  record 0 616e6e 00000000 0 0 00\n  part 0 76efddc5\n";
    let begin = "000000000000000000";
    let said = listing_of(format!("{}\r\n\n{}\n{}", begin, begin, begin).as_bytes());
    assert_eq!(said, format!("1 bad\n2 bad\n3 {}4 {}", begun, begun));
}

#[test]
fn nothing_happens_before_a_life_begins() {
    let mut lives = Lives::default();
    let publish = ScriptLine::Publish(asked(0, PRESENCE, 60, "", "a"));
    assert_eq!(happening_text(&lives.run(&publish)), "bad");
    let show = ScriptLine::Show { clock: 0, event: 0 };
    assert_eq!(happening_text(&lives.run(&show)), "bad");
    assert_eq!(lives.life, None);
}

#[test]
fn a_bad_line_leaves_the_life_as_it_is() {
    let mut tale = Tale::begin(0, 0);
    tale.publish(1, PRESENCE, 60, "", "a");
    let before = tale.life().clone();
    assert_eq!(happening_text(&tale.lives.run(&ScriptLine::Bad)), "bad");
    assert_eq!(tale.life(), &before);
}

#[test]
fn a_life_begins_afresh() {
    let mut tale = Tale::begin(0, 0);
    tale.publish(100, PRESENCE, 60, "", "a");
    let (start, spent) = (7, 9);
    let begins = tale.lives.run(&ScriptLine::Begin { start, spent });
    assert_eq!(happening_text(&begins), "begins");
    assert_eq!(tale.life(), &Life::begin(7, 9));
    assert_eq!(tale.record().latest, 0);
    assert!(tale.life().part().iter().all(|&byte| byte == 0));
}

#[test]
fn a_refresh_keeps_slot_and_body_number() {
    let mut tale = Tale::begin(0, 0);
    tale.publish(10, PRESENCE, 100, "", "first");
    tale.publish(10, PRESENCE, 100, "", "second");
    assert_eq!(
        tale.publish(20, PRESENCE, 3600, "3c6ef372", ""),
        "gives daa66d2b 1"
    );
    let slot = tale.slot(1);
    assert_eq!((slot.tag, slot.end), (0xdaa6_6d2b, 3620));
    assert_eq!((slot.body_length, slot.body_number), (6, 2));
    assert_eq!(&tale.life().part()[512..518], b"second");
    assert_eq!(tale.slot(0).body_number, 1);
}

#[test]
fn a_modify_changes_body_and_body_number() {
    let mut tale = Tale::begin(0, 0);
    tale.publish(10, PRESENCE, 100, "", "a long body");
    assert_eq!(
        tale.publish(20, PRESENCE, 50, "9e3779b9", "new"),
        "gives 3c6ef372 0"
    );
    let slot = tale.slot(0);
    assert_eq!((slot.end, slot.body_length, slot.body_number), (70, 3, 2));
    assert_eq!(&tale.life().part()[..3], b"new");
    assert!(tale.life().part()[3..].iter().all(|&byte| byte == 0));
}

#[test]
fn a_remove_frees_the_slot() {
    let mut tale = Tale::begin(0, 0);
    tale.publish(10, PRESENCE, 100, "", "a");
    tale.publish(10, DIALOG, 100, "", "b");
    assert_eq!(
        tale.publish(20, PRESENCE, 0, "9e3779b9", "c"),
        "gives daa66d2b 0"
    );
    assert_eq!((tale.record().map, tale.slot(0)), (2, Slot::ZERO));
    assert_eq!(tale.life().part()[0], 0);
    assert_eq!(tale.life().part()[512], b'b');
    assert_eq!(tale.publish(20, PRESENCE, 60, "", "d"), "gives 78dde6e4 8");
    assert_eq!((tale.record().map, tale.slot(0).body_number), (3, 4));
}

#[test]
fn an_initial_of_zero_takes_no_slot_and_spends_a_tag() {
    let mut tale = Tale::begin(0, 0);
    assert_eq!(tale.publish(10, PRESENCE, 0, "", "a"), "gives 9e3779b9 8");
    let record = tale.record();
    assert_eq!((record.spent, record.latest, record.map), (1, 10, 0));
}

#[test]
fn slots_that_ran_out_are_freed_at_the_next_success_only() {
    let mut tale = Tale::begin(0, 0);
    tale.publish(0, PRESENCE, 50, "", "a");
    tale.publish(0, PRESENCE, 100, "", "b");
    assert_eq!(tale.publish(60, PRESENCE, 60, "9e3779b9", ""), "unmatched");
    assert_eq!(tale.publish(60, PRESENCE, 60, "", ""), "empty");
    assert_eq!(tale.shows(60, PRESENCE), "shows 1");
    assert_eq!((tale.record().map, tale.record().latest), (3, 0));
    assert_eq!(
        tale.publish(60, PRESENCE, 60, "3c6ef372", ""),
        "gives daa66d2b 1"
    );
    assert_eq!((tale.record().map, tale.slot(0)), (2, Slot::ZERO));
    assert_eq!(tale.life().part()[0], 0);
}

#[test]
fn a_publication_lives_to_its_end() {
    for (clock, expected) in [
        (159, "gives 3c6ef372 0"),
        (160, "unmatched"),
        (161, "unmatched"),
    ] {
        let mut tale = Tale::begin(0, 0);
        tale.publish(100, PRESENCE, 60, "", "a");
        assert_eq!(tale.publish(clock, PRESENCE, 1, "9e3779b9", ""), expected);
    }
}

#[test]
fn back_stands_before_all_others() {
    let mut tale = Tale::begin(0, u32::MAX - 1);
    tale.publish(100, PRESENCE, 60, "", "a");
    assert_eq!(tale.publish(99, PRESENCE, 60, "", "a"), "back");
    assert_eq!(tale.publish(99, PRESENCE, 60, "nobody", ""), "back");
    assert_eq!(tale.publish(0, PRESENCE, 60, "", ""), "back");
    assert_eq!(tale.publish(100, PRESENCE, 60, "", ""), "empty");
}

#[test]
fn unmatched_tags() {
    let mut tale = Tale::begin(1, 0);
    tale.publish(0, PRESENCE, 3600, "", "a");
    tale.publish(0, DIALOG, 3600, "", "b");
    for tag in [
        "9E3779B9",
        "YE3779BA",
        "\u{19}e3779ba",
        "9e3779b",
        "e3779ba",
        "9e3779ba0",
        "09e3779ba",
        "*",
        "daa66d2c",
    ] {
        assert_eq!(
            tale.publish(0, PRESENCE, 60, tag, "c"),
            "unmatched",
            "{}",
            tag
        );
    }
    assert_eq!(tale.publish(0, DIALOG, 60, "9e3779ba", "c"), "unmatched");
    assert_eq!(tale.publish(0, SUMMARY, 60, "9E3779BA", ""), "unmatched");
    assert_eq!(tale.publish(0, PRESENCE, 60, "3c6ef373", ""), "unmatched");
    assert_eq!(
        tale.publish(0, PRESENCE, 60, "9e3779ba", ""),
        "gives daa66d2c 0"
    );
    assert_eq!(tale.publish(0, PRESENCE, 60, "9e3779ba", ""), "unmatched");
    assert_eq!(
        tale.publish(0, DIALOG, 0, "3c6ef373", ""),
        "gives 78dde6e5 1"
    );
}

#[test]
fn tags_match_in_either_case() {
    for (tag, again) in [("9E3779BA", "9e3779ba"), ("9e3779bA", "9E3779Ba")] {
        let mut tale = Tale::begin(1, 0);
        tale.publish(0, PRESENCE, 3600, "", "a");
        assert_eq!(tale.publish(0, PRESENCE, 60, tag, ""), "gives 3c6ef373 0");
        assert_eq!(tale.publish(0, PRESENCE, 60, tag, ""), "unmatched");
        assert_eq!(tale.publish(0, PRESENCE, 60, again, ""), "unmatched");
        assert_eq!(
            tale.publish(0, PRESENCE, 0, "3C6Ef373", ""),
            "gives daa66d2c 0"
        );
    }
}

#[test]
fn all_tags_spent() {
    let mut tale = Tale::begin(0, u32::MAX - 1);
    assert_eq!(tale.publish(0, PRESENCE, 60, "", "a"), "gives 61c88647 8");
    assert_eq!(tale.publish(0, PRESENCE, 60, "", "a"), "spent");
    assert_eq!(tale.publish(0, PRESENCE, 0, "61c88647", ""), "spent");
    assert_eq!(tale.publish(0, PRESENCE, 60, "", ""), "empty");
    assert_eq!(tale.publish(60, PRESENCE, 60, "61c88647", ""), "unmatched");
    assert_eq!(tale.publish(60, PRESENCE, 60, "", "a"), "spent");
    assert_eq!((tale.record().map, tale.record().latest), (1, 0));
    let mut tale = Tale::begin(0, u32::MAX);
    assert_eq!(tale.publish(5, PRESENCE, 0, "", "a"), "spent");
}

/// Eight publications of both packages, the third of which ends first.
fn full_tale(spent: u32) -> Tale {
    let mut tale = Tale::begin(0, spent);
    for k in 0..8 {
        let granted = if k == 2 { 70 } else { 100 + k };
        let said = tale.publish(10, (k % 2) as u8, granted, "", "a");
        assert!(said.starts_with("gives") && said.ends_with(" 8"));
    }
    assert_eq!(tale.record().map, 255);
    tale
}

#[test]
fn eight_live_are_full() {
    let mut tale = full_tale(0);
    assert_eq!(tale.publish(10, DIALOG, 60, "", "a"), "full 80");
    assert_eq!(tale.publish(79, DIALOG, 1, "", "a"), "full 80");
    assert_eq!(tale.publish(10, DIALOG, 60, "", ""), "empty");
    assert_eq!(tale.publish(79, DIALOG, 0, "", "a"), "gives 8ff34781 8");
    let tag = tale.tag(7);
    assert_eq!(tale.publish(79, SUMMARY, 60, &tag, ""), "gives 2e2ac13a 7");
    assert_eq!(tale.publish(79, DIALOG, 60, "", "a"), "full 80");
    assert_eq!(tale.publish(80, DIALOG, 60, "", "new"), "gives cc623af3 8");
    assert_eq!((tale.slot(2).package, tale.slot(2).end), (2, 140));
    assert_eq!(&tale.life().part()[1024..1028], b"new\0");
}

#[test]
fn spent_stands_before_full() {
    let mut tale = full_tale(u32::MAX - 8);
    assert_eq!(tale.publish(10, DIALOG, 60, "", "a"), "spent");
}

#[test]
fn the_highest_body_number_is_shown() {
    let mut tale = Tale::begin(0, 0);
    assert_eq!(tale.shows(0, PRESENCE), "shows 8");
    tale.publish(10, PRESENCE, 200, "", "a");
    tale.publish(10, PRESENCE, 100, "", "b");
    tale.publish(10, DIALOG, 200, "", "c");
    assert_eq!(tale.shows(10, PRESENCE), "shows 1");
    assert_eq!(tale.shows(109, PRESENCE), "shows 1");
    assert_eq!(tale.shows(110, PRESENCE), "shows 0");
    assert_eq!(tale.shows(210, PRESENCE), "shows 8");
    assert_eq!(tale.shows(10, DIALOG), "shows 2");
    assert_eq!(tale.shows(10, SUMMARY), "shows 8");
    tale.publish(10, PRESENCE, 200, "9e3779b9", "");
    assert_eq!(tale.shows(10, PRESENCE), "shows 1");
    let tag = tale.tag(0);
    tale.publish(10, PRESENCE, 200, &tag, "d");
    assert_eq!(tale.shows(10, PRESENCE), "shows 0");
}

#[test]
fn reading_state_has_no_refusal() {
    let mut tale = Tale::begin(0, 0);
    tale.publish(100, PRESENCE, 60, "", "a");
    assert_eq!(tale.shows(0, PRESENCE), "shows 0");
    assert_eq!(tale.shows(1_000_000_000_001, PRESENCE), "shows 8");
    assert_eq!(tale.shows(100, 3), "shows 8");
    assert_eq!(tale.shows(100, 255), "shows 8");
}

#[test]
fn sixty_refreshes() {
    let mut tale = Tale::begin(0xffff_fff0, 0);
    tale.publish(0, DIALOG, 3600, "", "other");
    tale.publish(0, PRESENCE, 3600, "", "body");
    let mut seen = vec![tale.tag(1)];
    for clock in 1..=60 {
        let tag = tale.tag(1);
        let said = tale.publish(clock, PRESENCE, 60, &tag, "");
        assert_eq!(said, format!("gives {} 1", tale.tag(1)));
        assert!(!seen.contains(&tale.tag(1)));
        seen.push(tale.tag(1));
    }
    let record = tale.record();
    assert_eq!((record.spent, record.latest, record.map), (62, 60, 3));
    let slot = tale.slot(1);
    assert_eq!((slot.end, slot.body_length, slot.body_number), (120, 4, 2));
    assert_eq!(&tale.life().part()[512..516], b"body");
}

#[test]
fn bodies_of_all_lengths() {
    let mut tale = Tale::begin(0, 0);
    tale.publish(0, PRESENCE, 60, "", &"x".repeat(512));
    assert!(tale.life().part()[..512].iter().all(|&byte| byte == b'x'));
    for length in [511, 1, 512] {
        let tag = tale.tag(0);
        tale.publish(0, PRESENCE, 60, &tag, &"y".repeat(length));
        let part = tale.life().part();
        assert!(part[..length].iter().all(|&byte| byte == b'y'));
        assert!(part[length..].iter().all(|&byte| byte == 0));
    }
}
