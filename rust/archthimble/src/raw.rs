//! The C functions, as `include/archthimble.h` declares them. The comparison, which wants bare words, takes this file too.

/// Words of an answer: ARCHTHIMBLE_OUT in the header.
pub const OUT: usize = 8;
/// Words of a reader: ARCHTHIMBLE_READER in the header.
pub const READER: usize = 16;

extern "C" {
    pub fn archthimble_lcn_plus(lcn: u64, delta: i64, out: *mut u64, out_len: usize) -> u64;
    pub fn archthimble_lcn_position(lcn: u64, cluster: u64, out: *mut u64, out_len: usize) -> u64;
    pub fn archthimble_geometry(sector: *const u8, sector_len: usize, out: *mut u64, out_len: usize) -> u64;
    pub fn archthimble_repair(record: *mut u8, record_len: usize, out: *mut u64, out_len: usize) -> u64;
    pub fn archthimble_next_run(list: *const u8, list_len: usize, cluster: u64, at: u64, lcn: u64, out: *mut u64, out_len: usize) -> u64;
    pub fn archthimble_lookup(list: *const u8, list_len: usize, cluster: u64, offset: u64, out: *mut u64, out_len: usize) -> u64;
    pub fn archthimble_open(
        list: *const u8,
        list_len: usize,
        cluster: u64,
        size: u64,
        reader: *mut u64,
        reader_len: usize,
        out: *mut u64,
        out_len: usize,
    ) -> u64;
    pub fn archthimble_seek(
        list: *const u8,
        list_len: usize,
        reader: *mut u64,
        reader_len: usize,
        from: u64,
        by: u64,
        out: *mut u64,
        out_len: usize,
    ) -> u64;
    pub fn archthimble_seek_signed(
        list: *const u8,
        list_len: usize,
        reader: *mut u64,
        reader_len: usize,
        from: u64,
        by: i64,
        out: *mut u64,
        out_len: usize,
    ) -> u64;
    pub fn archthimble_read(
        list: *const u8,
        list_len: usize,
        reader: *mut u64,
        reader_len: usize,
        w: u64,
        store: *mut u64,
        store_len: usize,
        out: *mut u64,
        out_len: usize,
    ) -> u64;
    pub fn archthimble_data_position(reader: *const u64, reader_len: usize, out: *mut u64, out_len: usize) -> u64;
}
