//! The archive's functions, as its header has them. Every pointer is to bytes that the caller lends; a record is 288 of them.

#[repr(C)]
pub struct Handled {
    pub length: usize,
    pub seconds: u64,
    pub tag: u32,
    pub status: u16,
    pub result: u8,
}

#[repr(C)]
pub struct State {
    pub position: usize,
    pub length: usize,
    pub shown: u8,
    pub result: u8,
}

extern "C" {
    pub fn windgusset_open(records: *mut u8, count: usize, store: *mut u8, size: usize) -> u8;
    pub fn windgusset_add(
        records: *mut u8,
        count: usize,
        store: *mut u8,
        size: usize,
        address: *const u8,
        address_length: usize,
        start: u32,
        spent: u32,
    ) -> u8;
    pub fn windgusset_handle(
        records: *mut u8,
        count: usize,
        store: *mut u8,
        size: usize,
        clock: u64,
        number: u32,
        request: *const u8,
        request_length: usize,
        answer: *mut u8,
        answer_size: usize,
    ) -> Handled;
    pub fn windgusset_read(
        records: *const u8,
        count: usize,
        store: *const u8,
        size: usize,
        address: *const u8,
        address_length: usize,
        name: *const u8,
        name_length: usize,
        clock: u64,
    ) -> State;
}
