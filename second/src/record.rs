//! One record: its fields, its slots and the map of those that are occupied.
//! It knows nothing of other records, of the store or of soundness.

pub const SLOTS: usize = 8;
pub const ADDRESS_SIZE: usize = 64;
pub const BODY_SIZE: usize = 512;
pub const CLOCK_LIMIT: u64 = 1_000_000_000_000;

/// The marks of a record. Any other is no mark, and not sound.
pub const UNUSED: u8 = 0;
pub const IN_USE: u8 = 1;

#[derive(Clone, Copy, Debug, PartialEq, Eq)]
pub struct Slot {
    pub package: usize,
    pub tag: u32,
    pub end: u64,
    pub body_length: usize,
    /// The success number that last set the body.
    pub body_number: u32,
}

impl Slot {
    pub const ZERO: Slot = Slot {
        package: 0,
        tag: 0,
        end: 0,
        body_length: 0,
        body_number: 0,
    };

    pub fn is_live(&self, clock: u64) -> bool {
        clock < self.end
    }
}

#[derive(Clone, Copy, Debug, PartialEq, Eq)]
pub struct Record {
    /// In use or not.
    pub mark: u8,
    /// Ends at its first zero byte, if there is one.
    pub address: [u8; ADDRESS_SIZE],
    pub start: u32,
    pub spent: u32,
    /// The clock of the latest success.
    pub latest: u64,
    pub map: u8,
    pub slots: [Slot; SLOTS],
}

impl Record {
    pub const ZERO: Record = Record {
        mark: UNUSED,
        address: [0; ADDRESS_SIZE],
        start: 0,
        spent: 0,
        latest: 0,
        map: 0,
        slots: [Slot::ZERO; SLOTS],
    };

    /// What adding writes. The address has at most 64 bytes.
    pub fn added(start: u32, spent: u32, address: &[u8]) -> Record {
        let mut record = Record {
            mark: IN_USE,
            start,
            spent,
            ..Record::ZERO
        };
        record.address[..address.len()].copy_from_slice(address);
        record
    }

    pub fn is_in_use(&self) -> bool {
        self.mark == IN_USE
    }

    pub fn address(&self) -> &[u8] {
        let end = self.address.iter().position(|&byte| byte == 0);
        &self.address[..end.unwrap_or(ADDRESS_SIZE)]
    }

    pub fn is_occupied(&self, slot: usize) -> bool {
        self.map & (1 << slot) != 0
    }

    pub fn occupied(&self) -> impl Iterator<Item = (usize, &Slot)> + '_ {
        self.slots
            .iter()
            .enumerate()
            .filter(move |&(k, _)| self.is_occupied(k))
    }

    pub fn live(&self, clock: u64) -> impl Iterator<Item = (usize, &Slot)> + '_ {
        self.occupied().filter(move |(_, slot)| slot.is_live(clock))
    }

    /// The least end among them, where eight are live.
    pub fn least_end_of_eight(&self, clock: u64) -> Option<u64> {
        let least = self.live(clock).map(|(_, slot)| slot.end).min();
        least.filter(|_| self.live(clock).count() == SLOTS)
    }

    pub fn occupied_count(&self) -> u32 {
        self.map.count_ones()
    }

    /// The lowest free slot; 8 where all are occupied.
    pub fn lowest_free_slot(&self) -> usize {
        (!self.map).trailing_zeros() as usize
    }

    pub fn take_slot(&mut self, k: usize, slot: Slot) {
        self.map |= 1 << k;
        self.slots[k] = slot;
    }

    pub fn free_slot(&mut self, k: usize) {
        self.map &= !(1 << k);
        self.slots[k] = Slot::ZERO;
    }
}

#[cfg(test)]
mod tests {
    use super::*;

    #[test]
    fn the_map_says_which_slots_are_free() {
        let mut record = Record::ZERO;
        assert_eq!(record.lowest_free_slot(), 0);
        record.map = 0b0000_1011;
        assert_eq!(record.lowest_free_slot(), 2);
        assert_eq!(record.occupied_count(), 3);
        record.map = 255;
        assert_eq!(record.lowest_free_slot(), 8);
        record.free_slot(7);
        assert_eq!(record.lowest_free_slot(), 7);
    }

    #[test]
    fn a_publication_is_live_while_the_clock_is_below_its_end() {
        let slot = Slot {
            end: 100,
            ..Slot::ZERO
        };
        assert!(slot.is_live(99));
        assert!(!slot.is_live(100));
        assert!(!slot.is_live(101));
    }
}
