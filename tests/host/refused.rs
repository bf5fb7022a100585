//! Starts that are refused: bad arguments, and state files that no host wrote. Each has a message and a status that is not 0, and the
//! state file is byte for byte as before.

use crate::checks::{holds, Checks, Held};
use crate::place::{self, Place, HOME};
use crate::state::{Line, State};

const ANN: &str = "sip:ann@example.com";

pub fn refused(place: &Place, checks: &mut Checks) {
    for (name, words, said) in arguments(place) {
        let words: Vec<&str> = words.iter().map(String::as_str).collect();
        checks.note(&name, bad_arguments(place, &words, said));
    }
    for (name, files) in state_files() {
        let tried = files.iter().try_for_each(|bytes| not_whole(place, bytes));
        checks.note(&format!("a state file that is not whole: {}", name), tried);
    }
    checks.note("a state file that is a folder", folder(place));
}

/// Bad arguments and a word of what is said of each. They change nothing where a state is there, and make none where it is not.
fn bad_arguments(place: &Place, words: &[&str], expected: &str) -> Held {
    let text = State::apart(&[ANN, "sip:bo@example.com"]).text().into_bytes();
    for there in [true, false] {
        let _ = std::fs::remove_file(place.state());
        if there {
            std::fs::write(place.state(), &text).map_err(|e| e.to_string())?;
        }
        let ended = place.run(words)?;
        holds(ended.status > 0 && ended.said.contains(expected) && ended.printed.is_empty(), || format!("{:?}", ended))?;
        let found = std::fs::read(place.state()).ok();
        holds(found == Some(text.clone()).filter(|_| there), || "the state was changed".to_string())?;
    }
    Ok(())
}

type Trial = (String, Vec<String>, &'static str);

fn arguments(place: &Place) -> Vec<Trial> {
    let (state, empty, folder) = (place.word("state"), place.word("empty"), place.word("a-folder"));
    std::fs::write(&empty, "\n\n").expect("no file");
    std::fs::create_dir_all(&folder).expect("no folder");
    let port = place::free(HOME).port().to_string();
    let trial = |words: &[&str], said| (format!("bad arguments: {:?}", words), words.iter().map(|w| w.to_string()).collect(), said);
    let mut trials = vec![trial(&[], "usage"), trial(&["127.0.0.1"], "usage"), trial(&["127.0.0.1", &port, &state], "usage")];
    for bad in ["0", "65536", "x", "+5060", "", "-1", "05060", " 5060", "5060 ", "5060x", "4294972356"] {
        trials.push(trial(&["127.0.0.1", bad, &state, ANN], "port"));
    }
    for bad in ["nonsense", "", "127.0.0.1.1", "256.0.0.1", "localhost", "127.0.0.1 ", ":::1"] {
        trials.push(trial(&[bad, &port, &state, ANN], "given in numbers"));
    }
    trials.push(trial(&["192.0.2.1", &port, &state, ANN], "cannot listen"));
    for bad in ["", "a b", " a", "a\n", "\u{7f}", "é", &"a".repeat(65)] {
        trials.push(trial(&["127.0.0.1", &port, &state, ANN, bad], "1 to 64 bytes"));
    }
    trials.push(trial(&["127.0.0.1", &port, &state, ANN, "x", ANN], "twice"));
    let many: Vec<String> = (0..17).map(|k| format!("a{}", k)).collect();
    let many: Vec<&str> = ["127.0.0.1", &port, &state].iter().copied().chain(many.iter().map(String::as_str)).collect();
    trials.push(trial(&many, "at most 16"));
    trials.push(trial(&["127.0.0.1", &port, &state, "-f", &place.word("not-there")], "cannot read"));
    trials.push(trial(&["127.0.0.1", &port, &state, "-f", &folder], "cannot read"));
    trials.push(trial(&["127.0.0.1", &port, &state, "-f", &empty], "no address"));
    trials.push(trial(&["127.0.0.1", &port, &state, ANN, "-f"], "file"));
    trials
}

/// A state file with these bytes is refused, and stays.
fn not_whole(place: &Place, bytes: &[u8]) -> Held {
    std::fs::write(place.state(), bytes).map_err(|e| e.to_string())?;
    let port = place::free(HOME).port().to_string();
    let ended = place.run(&["127.0.0.1", &port, &place.word("state"), ANN])?;
    let shown = || String::from_utf8_lossy(bytes).into_owned();
    let message = ended.said.contains("state is not as a host writes it");
    holds(ended.status > 0 && message, || format!("{:?} for {:?}", ended, shown()))?;
    let found = std::fs::read(place.state()).map_err(|e| e.to_string())?;
    holds(found == bytes, || format!("it was changed: {:?}", shown()))
}

fn good() -> State {
    let line = |spent, start, address: &str| Line { spent, start, address: address.to_string() };
    State { clock: 1_700_000_000, lines: vec![line(0, 4_294_967_295, ANN), line(1_234, 56, "b")] }
}

fn state_files() -> Vec<(&'static str, Vec<Vec<u8>>)> {
    let text = good().text();
    let cut = (0..text.len()).map(|length| text.as_bytes()[..length].to_vec()).collect();
    let changed = (0..text.len()).map(|at| with_other_byte(text.as_bytes(), at)).collect();
    let with = |from: &str, others: &[&str]| {
        assert!(text.contains(from));
        others.iter().map(|to| text.replacen(from, to, 1).into_bytes()).collect()
    };
    let long = "b".repeat(65);
    vec![
        ("cut at every length", cut),
        ("a byte changed at every place", changed),
        ("a number", with("1234", &["01234", "+1234", "-1", "4294967296", "99999999999999999999999", "", "1234x", "1 234"])),
        ("a clock", with("1700000000", &["1000000000001", "18446744073709551616", "-1", "", "01700000000"])),
        ("an end", with("end\n", &["end\nend\n", "end\n\n", "end", "\nend\n", "end\n\0", "end\nclock 1\n", "END\n", ""])),
        ("a line's end", with("\n", &["\r\n", "\n\n", " \n"])),
        ("a line's begin", with("spent", &[" spent", "Spent", "spend", "end\nspent"])),
        ("an address", with(" b\n", &[" \n", " b c\n", " \u{7f}\n", " \u{1}b\n", " é\n", " b\0\n", &format!(" {}\n", long)])),
        ("an address twice", with(" b\n", &[&format!(" {}\n", ANN)])),
        ("300 addresses", vec![many(300)]),
        ("257 addresses", vec![many(257)]),
        ("100,000 bytes", vec![vec![b'x'; 100_000], [text.as_bytes(), &vec![b'\n'; 100_000]].concat()]),
    ]
}

/// A byte that has no place there: no digit for a digit, another blank for a blank, a blank elsewhere.
fn with_other_byte(text: &[u8], at: usize) -> Vec<u8> {
    let mut bytes = text.to_vec();
    bytes[at] = match bytes[at] {
        b'0'..=b'9' => b'x',
        b' ' => b'\t',
        _ => b' ',
    };
    bytes
}

fn many(count: u32) -> Vec<u8> {
    let line = |k: u32| Line { spent: k, start: k, address: format!("sip:{}@example.com", k) };
    State { clock: 1, lines: (0..count).map(line).collect() }.text().into_bytes()
}

fn folder(place: &Place) -> Held {
    let _ = std::fs::remove_file(place.state());
    std::fs::create_dir(place.state()).map_err(|e| e.to_string())?;
    let port = place::free(HOME).port().to_string();
    let ended = place.run(&["127.0.0.1", &port, &place.word("state"), ANN]);
    std::fs::remove_dir(place.state()).map_err(|e| format!("the folder is not as it was: {}", e))?;
    let ended = ended?;
    holds(ended.status > 0 && ended.said.contains("cannot read"), || format!("{:?}", ended))
}
