//! The generated scripts: settled by their seed, reaching everything that can
//! happen in a life, and the same lives as the bench has.

use crate::table::Table;
use second::generate::scripts::{print_scripts, Scripts};
use second::life::{Happening, Lives};
use second::lives::{happening_text, print_lives};
use second::packages;
use second::script_in::{read_script_line, Publication, ScriptLine};
use second::text::is_token;
use std::collections::HashMap;

fn script(seed: u64, lines: u64) -> Vec<u8> {
    let mut printed = Vec::new();
    print_scripts(seed, lines, &mut printed).unwrap();
    printed
}

/// Each line of a script with what came of it.
fn told(seed: u64, lines: usize) -> Vec<(ScriptLine, Happening)> {
    let mut scripts = Scripts::new(seed);
    (0..lines)
        .map(|_| scripts.next_line())
        .map(|(line, happening)| (read_script_line(&line), happening))
        .collect()
}

fn publications(seed: u64, lines: usize) -> Vec<(Publication, Happening)> {
    let told = told(seed, lines).into_iter();
    told.filter_map(|(line, happening)| match line {
        ScriptLine::Publish(asked) => Some((asked, happening)),
        _ => None,
    })
    .collect()
}

#[test]
fn a_seed_settles_the_lines() {
    assert_eq!(script(1, 400), script(1, 400));
    assert_ne!(script(1, 400), script(2, 400));
    assert!(script(1, 400).starts_with(&script(1, 250)));
    assert!(script(1, 0).is_empty());
    let newlines = script(5, 1000);
    assert_eq!(newlines.iter().filter(|&&byte| byte == b'\n').count(), 1000);
}

#[test]
fn the_lives_alongside_say_what_the_listing_says() {
    let mut scripts = Scripts::new(11);
    let mut expected = String::new();
    for number in 1..=1000 {
        let (_, happening) = scripts.next_line();
        expected.push_str(&format!("{} {}\n", number, happening_text(&happening)));
    }
    let mut printed = Vec::new();
    print_lives(&mut &script(11, 1000)[..], &mut printed).unwrap();
    let printed = String::from_utf8(printed).unwrap();
    let own: String = printed
        .lines()
        .filter(|line| !line.starts_with("  "))
        .map(|line| format!("{}\n", line))
        .collect();
    assert_eq!(own, expected);
    assert!(!printed.contains("sound 0"));
}

#[test]
fn everything_happens() {
    for seed in 1..=6 {
        let mut counts: HashMap<String, u64> = HashMap::new();
        for (_, happening) in told(seed, 2000) {
            let said = happening_text(&happening);
            let mut words = said.split(' ');
            let mut name = words.next().unwrap_or("").to_string();
            if let Happening::Gives { slot, .. } | Happening::Shows { slot } = happening {
                name.push_str(if slot == 8 { " none" } else { " one" });
            }
            *counts.entry(name).or_insert(0) += 1;
        }
        assert_eq!(counts.len(), 11, "{:?}", counts);
        assert!(counts.values().all(|&count| count >= 10), "{:?}", counts);
    }
}

#[test]
fn every_kind_of_life_begins() {
    for seed in 1..=4 {
        let begun: Vec<(u32, u32)> = told(seed, 2000)
            .iter()
            .filter_map(|(line, _)| match line {
                ScriptLine::Begin { start, spent } => Some((*start, *spent)),
                _ => None,
            })
            .collect();
        assert!(begun.iter().any(|&(_, spent)| spent == 0));
        assert!(begun.iter().any(|&(_, spent)| spent == u32::MAX));
        assert!(begun
            .iter()
            .any(|&(_, spent)| (u32::MAX - 12..u32::MAX).contains(&spent)));
        let step = second::tags::STEP;
        let wraps = |&(start, spent): &(u32, u32)| spent == 0 && start.checked_add(step).is_none();
        assert!(begun.iter().any(wraps));
    }
}

/// The longest row of refreshes of one slot with no other line between.
fn longest_row(seed: u64) -> usize {
    let (mut longest, mut row, mut last) = (0, 0, 8);
    for (line, happening) in told(seed, 2000) {
        let refreshed = match (&line, happening) {
            (ScriptLine::Publish(asked), Happening::Gives { slot, .. })
                if asked.body.is_empty() && asked.granted > 0 =>
            {
                slot
            }
            _ => 8,
        };
        row = match refreshed {
            8 => 0,
            slot if slot == last => row + 1,
            _ => 1,
        };
        last = refreshed;
        longest = longest.max(row);
    }
    longest
}

#[test]
fn long_rows_of_refreshes() {
    for seed in 1..=6 {
        assert!(
            longest_row(seed) >= 60,
            "seed {}: {}",
            seed,
            longest_row(seed)
        );
    }
}

#[test]
fn bodies_and_tokens_of_every_kind() {
    let told = publications(3, 3000);
    let any = |test: &dyn Fn(&Publication) -> bool| told.iter().any(|(asked, _)| test(asked));
    for length in [0, 1, 511, 512] {
        assert!(any(&|asked| asked.body.len() == length), "{}", length);
    }
    for length in [0, 7, 8, 9, 255] {
        assert!(any(&|asked| asked.token.len() == length), "{}", length);
    }
    for package in 0..packages::COUNT {
        let most = packages::MOST[package];
        assert!(any(
            &|asked| asked.package == package && asked.granted == most
        ));
    }
}

#[test]
fn tags_in_every_spelling() {
    let told = publications(3, 3000);
    let any = |matches: bool, test: &dyn Fn(&[u8]) -> bool| {
        told.iter().any(|(asked, happening)| {
            let gives = matches!(happening, Happening::Gives { .. });
            asked.token.len() == 8 && gives == matches && test(&asked.token)
        })
    };
    let capitals = |token: &[u8]| token.iter().any(u8::is_ascii_uppercase);
    let small = |token: &[u8]| token.iter().any(u8::is_ascii_lowercase);
    for matches in [true, false] {
        assert!(any(matches, &|token| capitals(token) && !small(token)));
        assert!(any(matches, &|token| capitals(token) && small(token)));
        assert!(any(matches, &|token| !capitals(token) && small(token)));
    }
    assert!(any(false, &|token| !is_token(token)));
    assert!(!any(true, &|token| !is_token(token)));
}

#[test]
fn clocks_about_an_end_and_shorter_bodies() {
    let mut lives = Lives::default();
    let mut seen = HashMap::new();
    for (line, _) in told(2, 3000) {
        if let (ScriptLine::Publish(asked), Some(life)) = (&line, &lives.life) {
            for (_, slot) in life.record().occupied() {
                let about = (asked.clock + 1).wrapping_sub(slot.end);
                let own = second::tags::presents(&asked.token, slot.tag);
                if own && about < 3 {
                    *seen
                        .entry(["below", "at", "above"][about as usize])
                        .or_insert(0) += 1;
                }
                if own && (1..slot.body_length).contains(&asked.body.len()) {
                    *seen.entry("shorter").or_insert(0) += 1;
                }
                if own && asked.package != slot.package {
                    *seen.entry("package").or_insert(0) += 1;
                }
            }
        }
        lives.run(&line);
    }
    assert_eq!(seen.len(), 5, "{:?}", seen);
    assert!(seen.values().all(|&count| count >= 10), "{:?}", seen);
}

/// The request that asks for that publication.
fn request_of(asked: &Publication) -> Vec<u8> {
    let mut bytes = format!(
        "PUBLISH ann SIP/2.0\r\nVia:\r\nFrom:\r\nTo:\r\nCall-ID:\r\nCSeq: 1 PUBLISH\r\n\
        Event: {}\r\nContent-Type: {}\r\nExpires: {}\r\n",
        packages::NAMES[asked.package],
        packages::CONTENT_TYPES[asked.package],
        asked.granted
    )
    .into_bytes();
    if let Some(tag) = asked.presented() {
        bytes.extend_from_slice(b"SIP-If-Match: ");
        bytes.extend_from_slice(tag);
        bytes.extend_from_slice(b"\r\n");
    }
    bytes.extend_from_slice(b"\r\n");
    bytes.extend_from_slice(&asked.body);
    bytes
}

/// The bench's words for what came of a publication.
fn bench_words(asked: &Publication, happening: &Happening) -> String {
    match happening {
        Happening::Back | Happening::Spent => "500 - -".to_string(),
        Happening::Unmatched => "412 - -".to_string(),
        Happening::Empty => "400 - -".to_string(),
        Happening::Full { least } => format!("503 - {}", least - asked.clock),
        other => {
            let said = happening_text(other);
            let tag = said.split(' ').nth(1).unwrap_or("");
            format!("200 {} {}", tag, asked.granted)
        }
    }
}

/// The bench grants no time below the least and takes no tag that is no token.
fn the_bench_can_be_asked(asked: &Publication) -> bool {
    let least = packages::LEAST[asked.package];
    let token = asked.presented();
    (asked.granted == 0 || asked.granted >= least) && token.map_or(true, is_token)
}

#[test]
fn the_bench_has_the_same_lives() {
    let mut lives = Lives::default();
    let mut table = Table::new();
    for (line, _) in told(21, 2500) {
        if let ScriptLine::Publish(asked) = &line {
            if !the_bench_can_be_asked(asked) {
                continue;
            }
        }
        let happening = lives.run(&line);
        match &line {
            ScriptLine::Begin { start, spent } => {
                table.bench = second::bench::Bench::new();
                table.add("ann", *start, *spent);
            }
            ScriptLine::Publish(asked) if happening != Happening::Bad => {
                let said = table.bytes(asked.clock, &request_of(asked));
                assert_eq!(said, bench_words(asked, &happening));
            }
            _ => continue,
        }
        if let Some(life) = &lives.life {
            assert_eq!(table.record(0), life.record());
            assert_eq!(&table.bench.store[..4096], life.part());
        }
    }
}
