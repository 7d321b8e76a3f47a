//! What a `Handler` is not told.
use obex_engine::{End, Settings, Target};

/// Is told what happens in a session, in order, and answers nothing. Every method does nothing unless
/// it is written; `()` is an observer.
///
/// ```
/// use obex_server::observer::{Observer, Record};
///
/// #[derive(Default)]
/// struct Journal(Vec<String>);
///
/// impl Observer for Journal {
///     fn password_checked(&mut self, user_id: Option<&[u8]>, right: bool) {
///         self.0.push(format!("password of {user_id:?} {right}"));
///     }
///     fn record(&mut self, record: Record<'_>) {
///         self.0.push(format!("{} bytes of headers as received", record.headers.len()));
///     }
/// }
/// ```
pub trait Observer {
    /// The engine has started with these settings.
    fn started(&mut self, settings: &Settings) {
        let _ = settings;
    }

    /// The engine has taken these bytes of the client, up to a packet's end at most. All of them, one after
    /// another, are what the client sent.
    fn bytes_taken(&mut self, bytes: &[u8]) {
        let _ = bytes;
    }

    /// A packet of the client has come, whole.
    fn packet_received(&mut self, packet: &[u8]) {
        let _ = packet;
    }

    /// A reply has been written, whole.
    fn reply_sent(&mut self, packet: &[u8]) {
        let _ = packet;
    }

    /// A Put is whole, and this is its record. `Handler::put` is asked next.
    fn record(&mut self, record: Record<'_>) {
        let _ = record;
    }

    /// A password was checked, that of the user whom the client named.
    fn password_checked(&mut self, user_id: Option<&[u8]>, right: bool) {
        let _ = (user_id, right);
    }

    /// A client was challenged with this nonce.
    fn nonce_given(&mut self, nonce: [u8; 16]) {
        let _ = nonce;
    }

    /// The handler answered with this code, without its top bit, and these headers.
    fn reply_given(&mut self, code: u8, headers: &[u8]) {
        let _ = (code, headers);
    }

    /// The handler answered a Get with an object.
    fn object_given(&mut self) {}

    /// These connections were closed by [`Server::connections_closed`](crate::server::Server::connections_closed).
    fn connections_closed(&mut self, ids: &[u32]) {
        let _ = ids;
    }

    /// A Connect with an answer to a challenge was stopped, since eight of the last 64 passwords were wrong.
    fn connect_stopped(&mut self) {}

    /// The session has ended. It is not told if the transport fails, which `run` returns.
    fn ended(&mut self, end: End) {
        let _ = end;
    }
}

impl Observer for () {}

/// A record, as it was received.
#[derive(Debug, Clone, Copy, PartialEq, Eq)]
pub struct Record<'a> {
    /// The bytes of the kept headers.
    pub headers: &'a [u8],
    /// The body. Without a body header there is none.
    pub body: Option<&'a [u8]>,
    /// The Target of the connection under which it came, if there is one of at most 16 bytes.
    pub target: Option<Target>,
}
