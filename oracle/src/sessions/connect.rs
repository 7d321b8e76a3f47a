//! Connect and Disconnect, ids, the peer's challenges.

use super::headers::{self, CHALLENGE, CONNECTION_ID, SRM, TARGET, WHO};
use super::wire::{hex, long, Wire};
use super::{Draft, CONNECT, CONNECTS, DISCONNECT, FINAL, LIMITS, PUT};

pub const SUCCESSES: [u8; 7] = [0x20, 0x20, 0x20, 0x21, 0x22, 0x24, 0x26];
pub const CODES: [u8; 38] = [
    0x10, 0x20, 0x21, 0x22, 0x23, 0x24, 0x25, 0x26, 0x30, 0x31, 0x32, 0x33, 0x34, 0x35, 0x40, 0x41,
    0x42, 0x43, 0x44, 0x45, 0x46, 0x47, 0x48, 0x49, 0x4A, 0x4B, 0x4C, 0x4D, 0x4E, 0x4F, 0x50, 0x51,
    0x52, 0x53, 0x54, 0x55, 0x60, 0x61,
];

/// What a Connect asks for, as far as it decides what the host is asked and answers.
#[derive(Default)]
pub struct Asked {
    pub headers: Wire,
    pub target: Option<usize>,
    pub srm: bool,
    /// The first challenge, if all of them are readable.
    pub challenge: bool,
}

impl Draft {
    /// Sessions of Connects and Disconnects with ids of all kinds.
    pub fn connections(&mut self) {
        if self.random.one_in(30) {
            return self.many_ids();
        }
        for _ in 0..self.random.between(2, 6) {
            match self.random.below(8) {
                0 | 1 => self.disconnect(),
                2 => self.small_operation(),
                _ => self.connect(),
            }
        }
        for _ in 0..self.random.below(3) {
            self.disconnect();
        }
        self.small_operation();
    }

    /// As many ids as there may be, then some closed and their places used again. Nothing
    /// else happens here, so the ids are exactly those that the draft has.
    fn many_ids(&mut self) {
        let given = self.random.pick(&[0, 0, 4]);
        for _ in 0..CONNECTS {
            self.short_connect(given);
        }
        for _ in 0..self.random.below(6) {
            let id = self.random.pick(&self.ids);
            self.send(
                FINAL | DISCONNECT,
                &[],
                &headers::number(CONNECTION_ID, id).into(),
            );
            self.answer_reply(0x20, &[]);
            self.close(Some(id));
            self.short_connect(given);
        }
        let id = self.random.pick(&self.ids);
        self.send(FINAL | PUT, &[], &headers::number(CONNECTION_ID, id).into());
    }

    /// A Connect with a Target and nothing else; of `given` the host gives one its id.
    fn short_connect(&mut self, given: usize) {
        if self.ids.len() >= CONNECTS {
            return;
        }
        let target = headers::with(TARGET, vec![]);
        self.send(FINAL | CONNECT, &[0x10, 0, 4, 0], &target.into());
        if given > 0 && self.random.one_in(given) {
            let id = self.host_id();
            self.answer_reply(0x20, &headers::number(CONNECTION_ID, id));
            self.open(id);
        } else {
            self.answer_reply(0x20, &[]);
            self.allocate();
        }
    }

    pub fn connect(&mut self) {
        let asked = self.asked();
        self.connect_with(asked, true);
    }

    /// Sends a Connect. `reaches_host`: the password is not required, or will be found right.
    pub fn connect_with(&mut self, asked: Asked, reaches_host: bool) {
        if self.connects >= CONNECTS || self.ended {
            return;
        }
        self.connects += 1;

        let limit = self.random.pick(&LIMITS);
        let version = self.random.pick(&[0x10, 0x10, 0x15, 0x00]);
        let flags = self.random.pick(&[0, 0, 1, 0xFF]);
        let [high, low] = limit.to_be_bytes();
        let first = if self.random.one_in(8) {
            CONNECT
        } else {
            FINAL | CONNECT
        };
        let first = first | self.random.pick(&[0, 0, 0, 0x20, 0x40, 0x60]);

        self.send(first, &[version, flags, high, low], &asked.headers);
        self.limit = usize::from(limit).max(255);
        if reaches_host {
            self.host_connect(&asked);
        }
    }

    /// Target, SRM, challenges and whatever else stands in a Connect.
    pub fn asked(&mut self) -> Asked {
        let mut asked = Asked::default();
        let mut parts: Vec<Wire> = Vec::new();

        if !self.random.one_in(3) {
            let length = self.random.pick(&[0, 1, 3, 16, 16, 200, 230, 231, 232]);
            parts.push(headers::with(TARGET, self.random.filler(length)).into());
            asked.target = Some(length);
            if self.random.one_in(8) {
                parts.push(headers::with(TARGET, vec![1, 2]).into());
            }
        }
        if self.random.one_in(2) {
            let value = self.random.pick(&[1, 1, 1, 1, 0, 2]);
            parts.push(vec![SRM, value].into());
            asked.srm = value == 1;
            if self.random.one_in(6) {
                parts.push(vec![SRM, self.random.pick(&[0, 1, 2])].into());
            }
        }
        if self.random.one_in(4) {
            asked.challenge = self.challenges_of_peer(&mut parts);
        }
        if self.random.one_in(4) {
            parts.push(headers::number(CONNECTION_ID, self.random.below(3) as u32).into());
        }
        // Headers of any kind, somewhere among these.
        let at = self.random.below(parts.len() + 1);
        parts.insert(at, headers::some(&mut self.random).into());

        for part in &parts {
            asked.headers.append(part);
        }
        asked
    }

    /// One to three AuthenticateChallenges; true if all are readable.
    fn challenges_of_peer(&mut self, parts: &mut Vec<Wire>) -> bool {
        let mut all = true;
        for _ in 0..self.random.pick(&[1, 1, 1, 2, 2, 3]) {
            let readable = !self.random.one_in(5);
            all &= readable;
            let list = self.challenge_list(readable);
            parts.push(long(CHALLENGE, &list.into()));
        }
        all
    }

    fn challenge_list(&mut self, readable: bool) -> Vec<u8> {
        let mut list = Wire::default();
        if !readable {
            // No nonce, or one of a wrong length beside a good one.
            match self.random.below(4) {
                0 => list.tag(1, &vec![1].into()),
                1 => list.tag(0, &self.random.bytes(15).into()),
                2 => list.tag(0, &self.random.bytes(17).into()),
                _ => {
                    list.tag(0, &self.random.bytes(16).into());
                    list.tag(0, &vec![].into());
                }
            }
            return list.bytes;
        }
        for tag in 0..4 {
            for _ in 0..self.random.pick(&[0, 1, 1, 2]).max(usize::from(tag == 0)) {
                let value = self.challenge_value(tag);
                list.tag(tag, &value.into());
            }
        }
        list.bytes
    }

    fn challenge_value(&mut self, tag: u8) -> Vec<u8> {
        match tag {
            0 => self.random.bytes(16),
            1 => match self.random.below(6) {
                0 => vec![],
                1 => vec![0, 3],
                _ => vec![self.random.pick(&[0, 1, 2, 3, 0xFC, 0xFF])],
            },
            2 => {
                let length = self.random.pick(&[0, 0, 1, 2, 5]);
                self.random.bytes(length)
            }
            _ => self.random.bytes(2),
        }
    }

    /// The host's answers to a Connect, and what follows from them.
    fn host_connect(&mut self, asked: &Asked) {
        let success = !self.random.one_in(8);
        if !success {
            let code = self.random.pick(&CODES);
            let headers = self.reply_headers(7);
            self.answer_reply(code, &headers);
            return;
        }

        let given = self.given_headers();
        let mut added = 0;
        if let Some(target) = asked.target {
            added += if given.id.is_none() { 5 } else { 0 };
            added += if given.who { 0 } else { 3 + target };
        }
        if asked.challenge {
            added += self.credentials();
        }
        if asked.srm && self.srm_supported {
            added += 2;
            self.srm = true;
        }

        let mut headers = given.headers;
        if self.random.one_in(3) && self.limit < 2000 {
            let left = self.limit.saturating_sub(7 + added + headers.len());
            let length = self.random.near(left);
            headers.extend(headers::of_length(&mut self.random, length));
        }
        let code = self.random.pick(&SUCCESSES);
        self.answer_reply(code, &headers);

        match given.id {
            Some(id) => self.open(id),
            None if asked.target.is_some() => self.allocate(),
            None => {}
        }
    }

    /// The host may give ids and Who itself, at any place.
    fn given_headers(&mut self) -> Given {
        let mut given = Given::default();
        for _ in 0..self.random.pick(&[0, 0, 1, 2, 3]) {
            match self.random.below(4) {
                0 | 1 => {
                    let id = self.host_id();
                    given.id = given.id.or(Some(id));
                    given.headers.extend(headers::number(CONNECTION_ID, id));
                }
                2 => {
                    let length = self.random.below(4);
                    given.who = true;
                    given
                        .headers
                        .extend(headers::with(WHO, self.random.bytes(length)));
                }
                _ => {
                    let header = headers::any(&mut self.random);
                    given.who |= header[0] == WHO;
                    given.headers.extend(headers::canonical(&header));
                }
            }
        }
        given
    }

    /// Ids around those that the engine gives next, and the ends of the range.
    fn host_id(&mut self) -> u32 {
        let next = self.next_id;
        let any = self.random.next() as u32;
        self.random.pick(&[
            0,
            1,
            next,
            next,
            next.wrapping_add(1),
            next.wrapping_add(2),
            u32::MAX,
            u32::MAX - 1,
            any,
        ])
    }

    fn open(&mut self, id: u32) {
        if !self.ids.contains(&id) {
            self.ids.push(id);
        }
    }

    fn allocate(&mut self) {
        while self.ids.contains(&self.next_id) || self.next_id == u32::MAX {
            self.next_id = self.next_id.wrapping_add(1);
        }
        self.open(self.next_id);
        self.next_id = self.next_id.wrapping_add(1);
    }

    /// The host's answer to a challenge; the length of the header that comes of it.
    fn credentials(&mut self) -> usize {
        if self.random.one_in(4) {
            self.answer("credentials none");
            return 0;
        }
        let length = self.random.pick(&[0, 1, 4, 55, 56, 64, 70, 200]);
        let password = hex(&self.random.filler(length));
        if self.random.one_in(3) {
            self.answer(&format!("credentials nouser {password}"));
            return 39;
        }
        let length = self.random.pick(&[0, 1, 19, 20, 21, 100, 254, 255]);
        let user = hex(&self.random.filler(length));
        self.answer(&format!("credentials {user} {password}"));
        41 + length
    }

    pub fn disconnect(&mut self) {
        let mut headers = Wire::default();
        let id = self.some_id();
        if let Some(id) = id {
            headers.add(&headers::number(CONNECTION_ID, id));
        }
        if self.random.one_in(8) {
            let other = self.some_id().unwrap_or(99);
            headers.add(&headers::number(CONNECTION_ID, other));
        }
        headers.add(&headers::some(&mut self.random));
        let first = if self.random.one_in(6) {
            DISCONNECT
        } else {
            FINAL | DISCONNECT
        };
        self.send(first, &[], &headers);

        if id.is_none_or(|id| self.ids.contains(&id)) {
            self.close(id);
            self.answer_always();
        }
    }

    fn close(&mut self, id: Option<u32>) {
        self.ids.retain(|open| id.is_some_and(|id| id != *open));
        if self.ids.is_empty() {
            self.srm = false;
            self.authenticated = false;
            self.limit = 255;
        }
    }

    /// An open id, none, or seldom one that is not open.
    pub fn some_id(&mut self) -> Option<u32> {
        if self.random.one_in(10) {
            return Some(self.random.pick(&[0, 99, self.next_id, u32::MAX]));
        }
        if self.ids.is_empty() || self.random.one_in(3) {
            return None;
        }
        Some(self.random.pick(&self.ids))
    }
}

/// What the host gives in its answer to a Connect.
#[derive(Default)]
struct Given {
    headers: Vec<u8>,
    id: Option<u32>,
    who: bool,
}
