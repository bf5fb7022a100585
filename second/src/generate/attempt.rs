//! A request on its way to the engine: whom it is for, at what clock, and its
//! draft. Made here, it is one that succeeds.

use super::draft::Draft;
use super::random::Random;
use super::spelling::spelled;
use super::values;
use super::world::World;
use crate::frames_out::request_frame;
use crate::names::Name;
use crate::packages;

pub struct Attempt {
    /// None where the table has no address yet.
    pub record: Option<usize>,
    pub package: usize,
    pub clock: u64,
    pub draft: Draft,
}

/// What a request says, before it is put in words.
pub struct Wish {
    pub package: usize,
    pub presented: Option<Vec<u8>>,
    pub expires: Option<String>,
    pub body: Vec<u8>,
}

impl Wish {
    pub fn initial(random: &mut Random) -> Wish {
        let package = random.place(packages::COUNT);
        Wish {
            package,
            presented: None,
            expires: values::expires(package, random),
            body: values::body(random),
        }
    }

    pub fn refresh(world: &World, r: usize, k: usize, random: &mut Random) -> Wish {
        let slot = &world.record(r).slots[k];
        Wish {
            package: slot.package,
            presented: Some(spelled(slot.tag, random)),
            expires: values::expires(slot.package, random),
            body: Vec::new(),
        }
    }

    pub fn with_body(mut self, random: &mut Random) -> Wish {
        self.body = values::body(random);
        self
    }

    pub fn of_zero(mut self, random: &mut Random) -> Wish {
        self.expires = Some(values::expires_of_zero(random));
        self
    }
}

impl Attempt {
    pub fn new(world: &World, r: usize, clock: u64, wish: &Wish, random: &mut Random) -> Attempt {
        Attempt {
            record: Some(r),
            package: wish.package,
            clock,
            draft: draft_of(world.record(r).address(), wish, random),
        }
    }

    /// Succeeds with a fresh publication, where there is an address for it.
    pub fn initial(world: &World, random: &mut Random) -> Attempt {
        let wish = Wish::initial(random);
        match world.with_room(random) {
            Some((r, clock)) => Attempt::new(world, r, clock, &wish, random),
            None => Attempt {
                record: None,
                package: wish.package,
                clock: random.below(1000),
                draft: draft_of(b"nobody", &wish, random),
            },
        }
    }

    /// Succeeds with a live publication, or where there is none a fresh one.
    pub fn matching(
        world: &World,
        random: &mut Random,
        change: fn(Wish, &mut Random) -> Wish,
    ) -> Attempt {
        match world.live_slot(random) {
            None => Attempt::initial(world, random),
            Some((r, k)) => {
                let clock = world.live_clock(r, k, random);
                let wish = change(Wish::refresh(world, r, k, random), random);
                Attempt::new(world, r, clock, &wish, random)
            }
        }
    }

    pub fn any(world: &World, random: &mut Random) -> Attempt {
        match random.below(3) {
            0 => Attempt::matching(world, random, |wish, _| wish),
            _ => Attempt::any_with_body(world, random),
        }
    }

    pub fn any_with_body(world: &World, random: &mut Random) -> Attempt {
        match random.below(3) {
            0 => Attempt::matching(world, random, Wish::with_body),
            _ => Attempt::initial(world, random),
        }
    }

    pub fn frame(&self) -> Vec<u8> {
        request_frame(self.clock, &self.draft.bytes())
    }
}

pub fn draft_of(address: &[u8], wish: &Wish, random: &mut Random) -> Draft {
    let mut draft = Draft::new(address, random.one_in(2));
    add_copied_lines(&mut draft, address, random);
    let event = values::event(wish.package, random);
    draft.append(Name::Event, event.as_bytes(), random);
    if let Some(tag) = &wish.presented {
        draft.append(Name::SipIfMatch, tag, random);
    }
    if let Some(expires) = &wish.expires {
        draft.append(Name::Expires, expires.as_bytes(), random);
    }
    if !wish.body.is_empty() || random.one_in(8) {
        let content_type = values::content_type(wish.package, random);
        draft.append(Name::ContentType, &content_type, random);
    }
    add_body(&mut draft, &wish.body, random);
    if draft.dressed {
        dress(&mut draft, random);
    }
    draft
}

fn add_copied_lines(draft: &mut Draft, address: &[u8], random: &mut Random) {
    let text = harmless(address);
    let vias = ["SIP/2.0/UDP pua", "SIP/2.0/TCP a;branch=z9hG4bK", "", "x,y"];
    for _ in 0..1 + random.below(5).saturating_sub(2) {
        draft.append(Name::Via, random.pick(&vias).as_bytes(), random);
    }
    let from = format!("<{}>;tag=1", text);
    draft.append(Name::From, from.as_bytes(), random);
    let to = match random.one_in(3) {
        true => random.pick(values::TO_WITH_TAG),
        false => random.pick(values::TO_WITHOUT_TAG),
    };
    draft.append(Name::To, to.replace('@', &text).as_bytes(), random);
    draft.append(
        Name::CallId,
        random.pick(&["1", "", "a@b"]).as_bytes(),
        random,
    );
    draft.append(Name::Cseq, random.pick(values::CSEQ).as_bytes(), random);
}

/// An address may have quotes and angle brackets, which To and From are to
/// have only where they are meant.
fn harmless(address: &[u8]) -> String {
    address
        .iter()
        .filter(|byte| !b"\"<>\\;=".contains(byte))
        .map(|&byte| char::from(byte))
        .collect()
}

/// Content-Length exact, absent, or below what is there.
fn add_body(draft: &mut Draft, body: &[u8], random: &mut Random) {
    draft.rest = body.to_vec();
    match random.below(6) {
        0 => return,
        1 => draft.rest.push(b'z'),
        2 => {
            let dropped = random.place(30);
            draft.rest.extend(random.bytes(dropped));
        }
        3 if body.is_empty() => return,
        _ => {}
    }
    let length = match random.one_in(5) {
        true => format!("000000000000000000000000{}", body.len()),
        false => body.len().to_string(),
    };
    draft.append(Name::ContentLength, length.as_bytes(), random);
}

/// Lines that are passed over, another order, and small letters in SIP/2.0.
fn dress(draft: &mut Draft, random: &mut Random) {
    for _ in 0..random.below(4) {
        let text = random.pick(values::OTHER_LINES).to_vec();
        draft.insert_text(None, text, random);
    }
    if random.one_in(2) {
        random.shuffle(&mut draft.lines);
    }
    if random.one_in(3) {
        draft.version = random
            .pick(&[" sip/2.0\r\n", " Sip/2.0\r\n"])
            .as_bytes()
            .to_vec();
    }
}
