//! The functions of include/sdti.h, as they are.
extern "C" {
    pub fn sdti_reader(system: u8, mode: u8, state: *mut u8, state_len: usize) -> u32;
    pub fn sdti_writer(system: u8, mode: u8, state: *mut u8, state_len: usize) -> u32;
    pub fn sdti_read(state: *mut u8, state_len: usize, line: *const u8, line_len: usize, room: *mut u8, room_len: usize, event: *mut u8, event_len: usize) -> u32;
    pub fn sdti_read_within(
        state: *mut u8,
        state_len: usize,
        allowance: u64,
        line: *const u8,
        line_len: usize,
        room: *mut u8,
        room_len: usize,
        event: *mut u8,
        event_len: usize,
    ) -> u32;
    pub fn sdti_open(state: *mut u8, state_len: usize, f: bool, v: bool, number: u32, settings: *const u8, settings_len: usize, line: *mut u8, line_len: usize) -> u32;
    pub fn sdti_add(state: *mut u8, state_len: usize, kind: u32, values: *const u8, values_len: usize, line: *mut u8, line_len: usize) -> u32;
    pub fn sdti_add_many(state: *mut u8, state_len: usize, blocks: *const u8, blocks_len: usize, line: *mut u8, line_len: usize, finished: *mut u64) -> u32;
    pub fn sdti_packet(state: *mut u8, state_len: usize, did: u8, second: u8, values: *const u8, values_len: usize, line: *mut u8, line_len: usize) -> u32;
    pub fn sdti_close(state: *mut u8, state_len: usize, line: *mut u8, line_len: usize) -> u32;
    pub fn sdti_check(system: u8, mode: u8, line: *const u8, line_len: usize, header: *mut u8, header_len: usize) -> u32;
    pub fn sdti_list(system: u8, mode: u8, line: *const u8, line_len: usize, out: *mut u8, out_len: usize, listed: *mut u8, listed_len: usize) -> u32;
}
