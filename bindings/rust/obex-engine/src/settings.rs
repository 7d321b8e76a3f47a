//! What an engine is started with.

/// The settings at the start, which stay.
#[derive(Debug, Clone, PartialEq, Eq)]
pub struct Settings {
    /// The largest Put body. The body store is as long.
    pub max_object_size: u32,
    /// The largest packet that this side takes.
    pub max_packet_length: u16,
    /// Whether Single Response Mode is granted to a client that asks for it.
    pub single_response_mode: bool,
    /// Whether packets that trail a Put that was too long are refused with it.
    pub refuse_trailing: bool,
    /// Whether a password is required.
    pub authentication: Option<Authentication>,
}

impl Default for Settings {
    /// Puts of 64 MiB, packets of 65,535 bytes, and nothing else: the original's settings.
    fn default() -> Settings {
        Settings { max_object_size: 64 << 20, max_packet_length: u16::MAX, single_response_mode: false, refuse_trailing: false, authentication: None }
    }
}

/// A password is required.
#[derive(Debug, Clone, Default, PartialEq, Eq)]
pub struct Authentication {
    /// The realm that challenges name: a charset, and at most 254 bytes.
    pub realm: Option<(u8, Vec<u8>)>,
    /// Whether challenges say that a response has to name its user.
    pub user_id_required: bool,
    /// Whether challenges say that access is read only.
    pub read_only: bool,
    /// Whether a response without a user id fails if one is required.
    pub user_id_enforced: bool,
}

impl Settings {
    /// The first ten numbers of a state: the settings in the order of the table in `docs/RUST.md`.
    pub(crate) fn numbers(&self) -> [u64; 10] {
        let authentication = self.authentication.as_ref();
        let realm = authentication.and_then(|a| a.realm.as_ref());
        [
            self.max_object_size.into(),
            self.max_packet_length.into(),
            realm.map_or(0, |(charset, _)| *charset).into(),
            realm.is_some().into(),
            self.single_response_mode.into(),
            authentication.is_some().into(),
            authentication.is_some_and(|a| a.user_id_required).into(),
            authentication.is_some_and(|a| a.read_only).into(),
            authentication.is_some_and(|a| a.user_id_enforced).into(),
            self.refuse_trailing.into(),
        ]
    }
}
