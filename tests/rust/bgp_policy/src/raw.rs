//! The library's exports as `include/bgp_policy.h` declares them. A slice passes as its pointer and then its length.

extern "C" {
    pub fn bgp_open(
        local_role: u8,
        strict: u8,
        parameters: *const u8,
        parameters_len: usize,
        beside: *mut usize,
    ) -> u8;

    pub fn bgp_receive(
        local_as: u32,
        remote_as: u32,
        local_role: u8,
        mode: u8,
        one_administration: u8,
        block: *const u8,
        block_len: usize,
        out: *mut u8,
        out_len: usize,
        beside: *mut usize,
        thrown_out: *mut usize,
        state: *mut usize,
    ) -> u8;

    pub fn bgp_send_size(
        local_as: u32,
        remote_as: u32,
        local_role: u8,
        mode: u8,
        one_administration: u8,
        source: u8,
        state: u8,
        block: *const u8,
        block_len: usize,
        beside: *mut usize,
    ) -> u8;

    pub fn bgp_send_write(
        local_as: u32,
        remote_as: u32,
        local_role: u8,
        mode: u8,
        one_administration: u8,
        source: u8,
        state: u8,
        block: *const u8,
        block_len: usize,
        out: *mut u8,
        out_len: usize,
        beside: *mut usize,
    ) -> u8;

    pub fn bgp_check_sent(
        local_as: u32,
        remote_as: u32,
        local_role: u8,
        mode: u8,
        one_administration: u8,
        source: u8,
        state: u8,
        block: *const u8,
        block_len: usize,
        sent: *const u8,
        sent_len: usize,
        beside: *mut usize,
    ) -> u8;

    pub fn bgp_origin_state(
        prefix_length: u8,
        prefix: u32,
        own_as: u32,
        table: *const u8,
        table_len: usize,
        block: *const u8,
        block_len: usize,
        beside: *mut usize,
    ) -> u8;

    pub fn bgp_origin_state6(
        prefix_length: u8,
        prefix_high: u64,
        prefix_low: u64,
        own_as: u32,
        table: *const u8,
        table_len: usize,
        block: *const u8,
        block_len: usize,
        beside: *mut usize,
    ) -> u8;

    pub fn bgp_received_tag(
        block: *const u8,
        block_len: usize,
        beside: *mut usize,
        thrown_out: *mut usize,
    ) -> u8;

    pub fn bgp_choose(
        mode: u8,
        client: u32,
        buffer: *const u8,
        buffer_len: usize,
        candidates: *const u8,
        candidates_len: usize,
        beside: *mut usize,
        left: *mut usize,
    ) -> u8;

    pub fn bgp_better(
        first: *const u8,
        first_len: usize,
        state: u8,
        identifier: u32,
        address: u32,
        second: *const u8,
        second_len: usize,
        other_state: u8,
        other_identifier: u32,
        other_address: u32,
        beside: *mut usize,
    ) -> u8;

    pub fn bgp_index_build(
        table: *const u8,
        table_len: usize,
        memory: *mut u32,
        memory_len: usize,
        beside: *mut usize,
    ) -> u8;

    pub fn bgp_index_build6(
        table: *const u8,
        table_len: usize,
        memory: *mut u32,
        memory_len: usize,
        beside: *mut usize,
    ) -> u8;

    pub fn bgp_index_insert(
        record: *const u8,
        record_len: usize,
        memory: *mut u32,
        memory_len: usize,
        records: usize,
        nodes: usize,
        beside: *mut usize,
    ) -> u8;

    pub fn bgp_index_insert6(
        record: *const u8,
        record_len: usize,
        memory: *mut u32,
        memory_len: usize,
        records: usize,
        nodes: usize,
        beside: *mut usize,
    ) -> u8;

    pub fn bgp_index_look_up(
        memory: *const u32,
        memory_len: usize,
        prefix_length: u8,
        prefix: u32,
        origin: u32,
        beside: *mut usize,
        visited: *mut usize,
    ) -> u8;

    pub fn bgp_index_look_up6(
        memory: *const u32,
        memory_len: usize,
        prefix_length: u8,
        prefix_high: u64,
        prefix_low: u64,
        origin: u32,
        beside: *mut usize,
        visited: *mut usize,
    ) -> u8;
}
