//! Bytes lent to a call, with guard bytes before and behind them.

const GUARD: usize = 256;
/// On one side, with those that bring the content to its place.
const MOST_GUARDS: usize = GUARD + 16;
static GUARDS: [u8; MOST_GUARDS] = guard_bytes();

pub struct Lent {
    /// As words, so that it is known where the bytes begin.
    memory: Vec<u64>,
    begin: usize,
    length: usize,
}

impl Lent {
    /// The content begins so many bytes, at most eight, after a multiple of eight.
    pub fn new(content: &[u8], shift: usize) -> Lent {
        let (begin, length) = (GUARD + shift, content.len());
        let memory = vec![0; (begin + length + GUARD + 7) / 8];
        let mut lent = Lent { memory, begin, length };
        let all = lent.all_mut();
        let (front, rest) = all.split_at_mut(begin);
        front.copy_from_slice(&GUARDS[..begin]);
        let (inside, behind) = rest.split_at_mut(length);
        inside.copy_from_slice(content);
        behind.copy_from_slice(&GUARDS[..behind.len()]);
        lent
    }

    pub fn content(&self) -> &[u8] {
        &self.all()[self.begin..self.begin + self.length]
    }

    pub fn pointer(&self) -> *const u8 {
        self.content().as_ptr()
    }

    pub fn pointer_mut(&mut self) -> *mut u8 {
        let begin = self.begin;
        self.all_mut()[begin..].as_mut_ptr()
    }

    pub fn guards_stand(&self) -> bool {
        let (front, rest) = self.all().split_at(self.begin);
        guard_stands(front) && guard_stands(&rest[self.length..])
    }

    fn all(&self) -> &[u8] {
        let words = &self.memory;
        // Any word is eight bytes, and the words are borrowed as long as the bytes are.
        unsafe { std::slice::from_raw_parts(words.as_ptr().cast(), words.len() * 8) }
    }

    fn all_mut(&mut self) -> &mut [u8] {
        let words = &mut self.memory;
        unsafe { std::slice::from_raw_parts_mut(words.as_mut_ptr().cast(), words.len() * 8) }
    }
}

fn guard_stands(guard: &[u8]) -> bool {
    *guard == GUARDS[..guard.len()]
}

/// None is 0, which is what a stray write is likeliest to write.
const fn guard_bytes() -> [u8; MOST_GUARDS] {
    let mut bytes = [0; MOST_GUARDS];
    let mut i = 0;
    while i < MOST_GUARDS {
        bytes[i] = (i % 251) as u8 + 1;
        i += 1;
    }
    bytes
}
