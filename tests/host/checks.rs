//! What was tried, and how many of it held.

/// Nothing where a thing held, and why where it did not.
pub type Held = Result<(), String>;

/// Holds where the test is true; the words are made only where it is not.
pub fn holds(test: bool, why: impl FnOnce() -> String) -> Held {
    if test {
        Ok(())
    } else {
        Err(why())
    }
}

pub struct Checks {
    passed: u32,
    failed: u32,
}

impl Checks {
    pub fn new() -> Checks {
        Checks { passed: 0, failed: 0 }
    }

    pub fn note(&mut self, name: &str, held: Held) {
        match held {
            Ok(()) => self.passed += 1,
            Err(why) => {
                self.failed += 1;
                println!("FAILED: {}: {}", name, why);
            }
        }
    }

    /// Prints the sum; true where nothing failed.
    pub fn sum(&self) -> bool {
        println!("{} passed, {} failed", self.passed, self.failed);
        self.failed == 0
    }
}
