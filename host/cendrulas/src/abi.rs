//! The exported functions as include/cendrulas.h declares them. A slice is a pointer and a length. build.rs names the archive to the linker.

extern "C" {
    pub fn cendrulas_version() -> u32;

    pub fn cendrulas_digest(message: *const u8, message_len: usize, out: *mut u8, out_len: usize) -> u64;
    pub fn cendrulas_hmac(
        key: *const u8,
        key_len: usize,
        message: *const u8,
        message_len: usize,
        out: *mut u8,
        out_len: usize,
    ) -> u64;
    pub fn cendrulas_tag(
        key: *const u8,
        key_len: usize,
        message: *const u8,
        message_len: usize,
        out: *mut u8,
        out_len: usize,
    ) -> u64;

    pub fn cendrulas_fragment(
        t: usize,
        server: usize,
        content: *const u8,
        content_len: usize,
        out: *mut u8,
        out_len: usize,
    ) -> u64;
    pub fn cendrulas_restore(
        t: usize,
        length: usize,
        servers: *const usize,
        servers_len: usize,
        fragments: *const u8,
        fragments_len: usize,
        out: *mut u8,
        out_len: usize,
    ) -> u64;
    pub fn cendrulas_weights(
        t: usize,
        servers: *const usize,
        servers_len: usize,
        used: *mut u8,
        used_len: usize,
        rows: *mut u8,
        rows_len: usize,
    ) -> u64;
    pub fn cendrulas_restore_weighed(
        t: usize,
        length: usize,
        rows: *const u8,
        rows_len: usize,
        fragments: *const u8,
        fragments_len: usize,
        out: *mut u8,
        out_len: usize,
    ) -> u64;

    pub fn cendrulas_packet_check(packet: *const u8, packet_len: usize) -> u64;
    pub fn cendrulas_store_code(packet: *const u8, packet_len: usize) -> u64;

    pub fn cendrulas_plan(
        t: usize,
        length: usize,
        readers: usize,
        stores: usize,
        numbers: *mut usize,
        numbers_len: usize,
    ) -> u64;

    pub fn cendrulas_server_blank(memory: *mut u8, memory_len: usize, t: usize, server: usize) -> u64;
    pub fn cendrulas_server_take(
        memory: *mut u8,
        memory_len: usize,
        key: *const u8,
        key_len: usize,
        packet: *const u8,
        packet_len: usize,
        out: *mut u8,
        out_len: usize,
    ) -> u64;

    pub fn cendrulas_client_round(state: *const u8, state_len: usize) -> u64;
    pub fn cendrulas_client_begin_write(
        state: *mut u8,
        state_len: usize,
        t: usize,
        client: usize,
        content: *const u8,
        content_len: usize,
        nonce: *const u8,
        nonce_len: usize,
    ) -> u64;
    pub fn cendrulas_client_begin_read(state: *mut u8, state_len: usize, t: usize, client: usize) -> u64;
    pub fn cendrulas_client_make(
        state: *const u8,
        state_len: usize,
        t: usize,
        client: usize,
        server: usize,
        out: *mut u8,
        out_len: usize,
    ) -> u64;
    pub fn cendrulas_client_take(
        state: *mut u8,
        state_len: usize,
        t: usize,
        client: usize,
        writers: *const u8,
        writers_len: usize,
        keys: *const u8,
        keys_len: usize,
        packet: *const u8,
        packet_len: usize,
        out: *mut u8,
        out_len: usize,
    ) -> u64;
    pub fn cendrulas_client_give_up(state: *mut u8, state_len: usize, t: usize, client: usize) -> u64;

    pub fn cendrulas_drill(
        sheet: *const u8,
        sheet_len: usize,
        out: *mut u8,
        out_len: usize,
        work: *mut u8,
        work_len: usize,
    ) -> u64;
}
