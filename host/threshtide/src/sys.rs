//! The C functions of Threshtide, as its Rattle source declares them. Made by host/generate: do not edit.
//!
//! A slice is a pointer and a length. An answer's low byte is 0 for yes, or a number for no; its value stands in
//! bits 8 and up (docs/INTERFACE.md).

unsafe extern "C" {
    /// How many bytes a host has to lend as the state.
    pub fn threshtide_state_size() -> u64;

    /// Gives an input new bytes; what they do not reach becomes zero. No: 1, 6, 7.
    pub fn threshtide_set_input(
        state: *mut u8,
        state_len: usize,
        instance: u32,
        bytes: *const u8,
        bytes_len: usize,
    ) -> u64;

    /// Reads an output: the run byte, then its bytes; the next change gives an event again. No: 1, 6, 8.
    pub fn threshtide_output(
        state: *mut u8,
        state_len: usize,
        instance: u32,
        out: *mut u8,
        out_len: usize,
    ) -> u64;

    /// Reads the bytes of an assembly of a kind: 1 input, 2 output, 3 configuration. No: 1, 6, 8.
    pub fn threshtide_assembly(
        state: *const u8,
        state_len: usize,
        kind: u8,
        instance: u32,
        out: *mut u8,
        out_len: usize,
    ) -> u64;

    /// Takes the oldest event: a record of 32 bytes. No: 1, 9, 8.
    pub fn threshtide_next_event(
        state: *mut u8,
        state_len: usize,
        out: *mut u8,
        out_len: usize,
    ) -> u64;

    /// Packets produced, those that were late, the greatest lateness in microseconds: 8 bytes each. No: 1, 8.
    pub fn threshtide_stats(
        state: *const u8,
        state_len: usize,
        out: *mut u8,
        out_len: usize,
    ) -> u64;

    /// The connections in table order, a record of 32 bytes each. No: 1, 8.
    pub fn threshtide_connections(
        state: *const u8,
        state_len: usize,
        out: *mut u8,
        out_len: usize,
    ) -> u64;

    /// Sets a state up from a block of 192 bytes and an EDS; ids begin at the seed. No: 1, 2.
    pub fn threshtide_setup(
        state: *mut u8,
        state_len: usize,
        block: *const u8,
        block_len: usize,
        eds: *const u8,
        eds_len: usize,
        seed: u32,
    ) -> u64;

    /// Closes a connection. Yes: 10 reply bytes. No: 1, 4, 9, 8.
    pub fn threshtide_close(
        state: *mut u8,
        state_len: usize,
        request: *const u8,
        request_len: usize,
        out: *mut u8,
        out_len: usize,
    ) -> u64;

    /// Removes what was silent for longer than its timeout; how many went stands in bits 8 and up. No: 1, 3.
    pub fn threshtide_expire(state: *mut u8, state_len: usize, time: u64) -> u64;

    /// The time when a packet is due or a connection lives no longer, 8 bytes. No: 1, 9, 8.
    pub fn threshtide_next_deadline(
        state: *const u8,
        state_len: usize,
        out: *mut u8,
        out_len: usize,
    ) -> u64;

    /// A frame from an address; one of no use is ignored. No: 1, 3.
    pub fn threshtide_receive(
        state: *mut u8,
        state_len: usize,
        time: u64,
        from: u32,
        frame: *const u8,
        frame_len: usize,
    ) -> u64;

    /// All packets that are due, one behind the other; their length stands in bits 8 and up. No: 1, 3, 8.
    pub fn threshtide_produce(
        state: *mut u8,
        state_len: usize,
        time: u64,
        out: *mut u8,
        out_len: usize,
    ) -> u64;

    /// How many bytes an upload position has; all zero is none.
    pub fn threshtide_upload_size() -> u64;

    /// The reply to an explicit message; an upload of the EDS moves its position. No: 1, 8.
    pub fn threshtide_message(
        state: *const u8,
        state_len: usize,
        upload: *mut u8,
        upload_len: usize,
        local: u32,
        mask: u32,
        message: *const u8,
        message_len: usize,
        out: *mut u8,
        out_len: usize,
    ) -> u64;

    /// What a path holds, a record of 32 bytes. No: 4, 8.
    pub fn threshtide_path(path: *const u8, path_len: usize, out: *mut u8, out_len: usize) -> u64;

    /// What an explicit message asks, a record of 20 bytes. No: 4, 8.
    pub fn threshtide_request(
        message: *const u8,
        message_len: usize,
        out: *mut u8,
        out_len: usize,
    ) -> u64;

    /// Opens a connection. Yes: 26 reply bytes; multicast in bits 8 to 15, port in 16 to 31, address in 32 to 63. No: 1, 3, 4, 5, 8.
    pub fn threshtide_open(
        state: *mut u8,
        state_len: usize,
        time: u64,
        service: u8,
        request: *const u8,
        request_len: usize,
        peer: u32,
        local: u32,
        mask: u32,
        given: bool,
        address: u32,
        port: u16,
        ioport: u16,
        out: *mut u8,
        out_len: usize,
    ) -> u64;

    /// The 10 bytes of data of a refused open's reply. No: 4, 8.
    pub fn threshtide_open_refusal(
        service: u8,
        request: *const u8,
        request_len: usize,
        out: *mut u8,
        out_len: usize,
    ) -> u64;
}
