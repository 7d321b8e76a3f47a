//! The proved functions, as `crates/engine_c/src/lib.rt` exports them. Nothing checks these
//! declarations against that file: they are trusted, and so is `lib.rs`, that it reads the
//! numbers as `crates/engine_c/specs/Words.antt` says.

/// The state and the result of the last call.
pub type Words = [u64; 64];

/// The version of the numbers' layout that `lib.rs` was written for.
pub const VERSION: u64 = 2;

/// A slice passes as its pointer and then its length; a reference to an array as its pointer.
/// Every call but one is lent the four stores.
macro_rules! calls {
    ($($name:ident($($arg:ident: $type:ty),*);)*) => {
        unsafe extern "C" {
            $(pub fn $name(
                words: *mut Words, $($arg: $type,)*
                packet: *mut u8, packet_len: usize,
                headers: *mut u8, headers_len: usize,
                body: *mut u8, body_len: usize,
                reply: *mut u8, reply_len: usize,
            );)*
        }
    };
}

calls! {
    obex_engine_start(realm: *const u8, realm_len: usize, tables: *const u64, tables_len: usize);
    obex_engine_bytes_offered(input: *const u8, input_len: usize, tables: *const u64, tables_len: usize);
    obex_engine_stream_ended();
    obex_engine_reply_taken();
    obex_engine_reply_given(code: u8, header_bytes: *const u8, header_bytes_len: usize, tables: *mut u64, tables_len: usize);
    obex_engine_object_given(header_bytes: *const u8, header_bytes_len: usize, has_body: bool);
    obex_engine_body_given(d: *const u8, d_len: usize);
    obex_engine_body_failed();
    obex_engine_abort_acknowledged();
    obex_engine_password_given(has_password: bool, password: *const u8, password_len: usize);
    obex_engine_nonce_given(first: u64, second: u64, realm: *const u8, realm_len: usize, tables: *mut u64, tables_len: usize);
    obex_engine_credentials_given(
        has_credentials: bool, has_user: bool, user: *const u8, user_len: usize, password: *const u8, password_len: usize
    );
}

unsafe extern "C" {
    pub fn obex_engine_connections_closed(words: *mut Words, ids: *const u32, ids_len: usize, tables: *mut u64, tables_len: usize);
    pub safe fn obex_engine_version() -> u64;
}
