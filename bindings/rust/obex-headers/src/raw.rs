//! The proved functions, as `crates/headers_c/src/lib.rt` exports them. Nothing checks these
//! declarations against that file: they are trusted.

/// Where a header's value is: the bytes from `start` up to `end`, if `found` is 1.
#[repr(C)]
pub struct Place {
    pub found: u64,
    pub start: usize,
    pub end: usize,
}

/// 0 and where the written bytes end, or the number of what went wrong.
#[repr(C)]
pub struct Wrote {
    pub number: u64,
    pub end: usize,
}

/// A challenge; all numbers are 0 if it is not readable.
#[repr(C)]
pub struct Challenge {
    pub readable: u64,
    pub first: u64,
    pub second: u64,
    pub user_id_required: u64,
    pub read_only: u64,
    pub has_realm: u64,
    pub realm_start: usize,
    pub realm_end: usize,
}

// A slice passes as its pointer and then its length.
unsafe extern "C" {
    pub fn obex_header_find(headers: *const u8, length: usize, from: usize, id: u8) -> Place;
    pub fn obex_header_text(value: *const u8, length: usize, store: *mut u8, store_length: usize) -> Wrote;
    pub fn obex_header_ascii(value: *const u8, length: usize, store: *mut u8, store_length: usize) -> Wrote;
    pub fn obex_header_put_bytes(store: *mut u8, store_length: usize, at: usize, id: u8, value: *const u8, length: usize) -> Wrote;
    pub fn obex_header_put_u8(store: *mut u8, store_length: usize, at: usize, id: u8, value: u8) -> Wrote;
    pub fn obex_header_put_u32(store: *mut u8, store_length: usize, at: usize, id: u8, value: u32) -> Wrote;
    pub fn obex_header_put_text(store: *mut u8, store_length: usize, at: usize, id: u8, text: *const u8, length: usize) -> Wrote;
    pub fn obex_header_put_type(store: *mut u8, store_length: usize, at: usize, text: *const u8, length: usize) -> Wrote;
    pub fn obex_challenge_read(value: *const u8, length: usize) -> Challenge;
    pub fn obex_challenge_answer(
        store: *mut u8,
        store_length: usize,
        at: usize,
        first: u64,
        second: u64,
        has_user: bool,
        user: *const u8,
        user_length: usize,
        password: *const u8,
        password_length: usize,
    ) -> Wrote;
}
