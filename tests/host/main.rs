//! The host of host/host.c, tried from outside: client PART FOLDER WORD..
//! The words start a host; its files lie in the folder. Prints what failed, and 'N passed, M failed'.

mod again;
mod broken;
mod chance;
mod checks;
mod clock;
mod collected;
mod ends;
mod host;
mod kept;
mod kill_round;
mod kills;
mod lives;
mod log;
mod message;
mod place;
mod refused;
mod sender;
mod sipp;
mod state;
mod tags;
mod unwritten;
mod whole;

use checks::Checks;
use place::Place;

const PARTS: [(&str, fn(&Place, &mut Checks)); 17] = [
    ("lives", lives::without_loss),
    ("loss", lives::with_loss),
    ("forgetful", lives::forgetful),
    ("broken", broken::broken),
    ("kills", kills::kills),
    ("careless", kills::careless),
    ("again", again::again),
    ("window", again::window),
    ("state", kept::kept),
    ("unwritten", unwritten::unwritten),
    ("failing", unwritten::failing),
    ("disordered", unwritten::disordered),
    ("clock", clock::clock),
    ("ends", ends::ends),
    ("unread", ends::unread),
    ("refused", refused::refused),
    ("whole", whole::whole),
];

fn main() {
    let words: Vec<String> = std::env::args().skip(1).collect();
    let part = PARTS.iter().find(|part| words.len() > 2 && words[0] == part.0);
    let run = part.unwrap_or_else(|| panic!("client PART FOLDER WORD..")).1;
    let place = Place::new(words[1].clone().into(), words[2..].to_vec());
    let mut checks = Checks::new();
    run(&place, &mut checks);
    if !checks.sum() {
        std::process::exit(1);
    }
}
