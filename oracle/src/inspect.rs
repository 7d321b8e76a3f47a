// Appended to the copy of engine/server.rs by the oracle's build.rs; not part of the
// original. It reads the private fields, which only this module can, and sets one at
// the start of a session: the counter of ids.

/// What the engine keeps from one operation to the next.
pub(crate) struct Inspection<'a> {
    pub(crate) remote_max_packet_length: u16,
    pub(crate) srm_enabled: bool,
    pub(crate) authenticated: bool,
    pub(crate) connections: &'a HashSet<u32>,
    pub(crate) next_connection_id: u32,
    pub(crate) challenge: Option<&'a DigestChallenge>,
}

impl<T, H> ServerEngine<T, H> {
    /// Lets ids be counted up from a number other than 1, so that the wrap is met.
    pub(crate) fn count_from(&mut self, counter: u32) {
        self.next_connection_id = counter;
    }

    pub(crate) fn inspect(&self) -> Inspection<'_> {
        Inspection {
            remote_max_packet_length: self.remote_max_packet_length,
            srm_enabled: self.srm_enabled,
            authenticated: self.authenticated,
            connections: &self.connections,
            next_connection_id: self.next_connection_id,
            challenge: self.challenge.as_ref(),
        }
    }
}
