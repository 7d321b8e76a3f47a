//! Operations of one kind of packet, what comes inside an operation that does not belong
//! there, what is turned away and drained, and bytes that are no sessions at all.

use super::connect::CODES;
use super::headers::{self, BODY, CONNECTION_ID, SRM, SRM_PARAMETER};
use super::wire::{long, Wire};
use super::{
    Draft, ABORT, ACTION, CONNECT, DISCONNECT, FINAL, GET, LIMITS, PUT, SESSION, SET_PATH, USER,
};

/// First bytes that stand for nothing.
const UNKNOWN: [u8; 12] = [
    0x04, 0x84, 0x08, 0x88, 0x0F, 0x8F, 0x24, 0xE4, 0x6F, 0xEF, 0x49, 0xCC,
];

const OPCODES: [u8; 10] = [
    CONNECT, DISCONNECT, PUT, PUT, GET, GET, SET_PATH, ACTION, SESSION, USER,
];

impl Draft {
    pub fn small_operations(&mut self) {
        if self.random.one_in(2) {
            self.connect();
        }
        for _ in 0..self.random.between(2, 6) {
            self.small_operation();
        }
    }

    pub fn small_operation(&mut self) {
        match self.random.below(11) {
            0 => self.set_path(),
            1 => self.abort(),
            2 => self.unreadable(),
            3 | 4 => self.gathered(ACTION),
            5 => self.gathered(SESSION),
            6 | 7 => self.user_defined(),
            8 => self.put(),
            9 => self.get(),
            _ => self.odd_connect(),
        }
    }

    /// The first byte of a packet; the two bits that have no meaning are set now and then.
    pub fn first(&mut self, opcode: u8, is_final: bool) -> u8 {
        let meaningless = if self.random.one_in(6) {
            self.random.pick(&[0x20, 0x40, 0x60])
        } else {
            0
        };
        let first = opcode | meaningless;
        // With all low bits set it would be an Abort.
        let first = if first & 0x7F == ABORT { opcode } else { first };
        first | if is_final { FINAL } else { 0 }
    }

    fn set_path(&mut self) {
        let mut headers = Wire::default();
        self.add_id(&mut headers);
        headers.add(&headers::some(&mut self.random));
        let flags = [
            self.random.pick(&[0, 1, 2, 3, 0xFC, 0xFF]),
            self.random.byte(),
        ];
        let is_final = !self.random.one_in(4);
        let first = self.first(SET_PATH, is_final);
        self.send(first, &flags, &headers);
        self.answer_admitted();
    }

    pub fn abort(&mut self) {
        let headers = if self.random.one_in(3) {
            headers::some(&mut self.random)
        } else {
            Vec::new()
        };
        let first = self.random.pick(&[ABORT, FINAL | ABORT]);
        self.send(first, &[], &headers.into());
    }

    fn user_defined(&mut self) {
        let opcode = match self.random.below(3) {
            0 => self.random.pick(&[0x10, 0x1F]),
            _ => USER + self.random.below(16) as u8,
        };
        self.gathered(opcode);
    }

    /// Action, Session, user-defined: headers alone, over one packet or several.
    fn gathered(&mut self, opcode: u8) {
        let count = self.random.pick(&[1, 1, 2, 3, 5]);
        for place in 0..count {
            if place > 0 && self.disturbed(opcode) {
                return;
            }
            let mut headers = Wire::default();
            if place == 0 {
                self.add_id(&mut headers);
            }
            headers.add(&headers::some(&mut self.random));
            // These mean something elsewhere and are kept here.
            match self.random.below(4) {
                0 => headers.add(&[SRM, self.random.pick(&[0, 1, 2])]),
                1 => headers.add(&[SRM_PARAMETER, self.random.pick(&[0, 1, 2])]),
                2 => headers.add(&headers::with(BODY, self.random.bytes(3))),
                _ => headers.add(&headers::any(&mut self.random)),
            }
            let first = self.first(opcode, place + 1 == count);
            self.send(first, &[], &headers);
        }
        self.answer_admitted();
    }

    /// A ConnectionID as `some_id` chooses it, seldom a second one.
    pub fn add_id(&mut self, headers: &mut Wire) {
        let id = self.some_id();
        self.admitted = id.is_none_or(|id| self.ids.contains(&id))
            && (self.authentication.is_none() || self.authenticated);
        if let Some(id) = id {
            headers.add(&headers::number(CONNECTION_ID, id));
            if self.random.one_in(8) {
                let other = self.random.pick(&[0, 99, id]);
                headers.add(&headers::number(CONNECTION_ID, other));
            }
        }
    }

    /// A reply of the host, if the last operation comes to it: each takes the next that
    /// there is, so none may be left over.
    pub fn answer_admitted(&mut self) {
        if self.admitted {
            self.answer_always();
        }
    }

    pub fn answer_always(&mut self) {
        if self.random.one_in(2) {
            self.answer_reply(0x20, &[]);
            return;
        }
        let code = self.random.pick(&CODES);
        let headers = self.reply_headers(3);
        self.answer_reply(code, &headers);
    }

    /// Headers that just fit the peer's limit or just do not, or a few.
    pub fn reply_headers(&mut self, before: usize) -> Vec<u8> {
        let length = if self.limit < 2000 && self.random.one_in(2) {
            self.random.near(self.limit - before)
        } else {
            self.random.pick(&[0, 0, 0, 2, 3, 5, 30])
        };
        headers::of_length(&mut self.random, length)
    }

    /// Sessions about replies of every length.
    pub fn replies(&mut self) {
        if !self.random.one_in(3) {
            self.connect();
        }
        for _ in 0..self.random.between(2, 5) {
            let opcode = self
                .random
                .pick(&[PUT, GET, SET_PATH, ACTION, SESSION, USER, DISCONNECT]);
            let fields: &[u8] = if opcode == SET_PATH { &[0, 0] } else { &[] };
            self.send(FINAL | opcode, fields, &Wire::default());
            if opcode == DISCONNECT {
                self.limit = 255;
            }
            self.answer_always();
        }
    }

    /// A packet that cannot be read, or whose first byte stands for nothing.
    fn unreadable(&mut self) {
        if self.random.one_in(4) {
            let first = self.random.pick(&UNKNOWN);
            let rest = headers::some(&mut self.random);
            self.send(first, &[], &rest.into());
            return;
        }
        let opcode = self.random.pick(&OPCODES);
        self.unreadable_of(opcode);
    }

    fn unreadable_of(&mut self, opcode: u8) {
        let is_final = self.random.one_in(2);
        let first = self.first(opcode, is_final);
        let needed = match opcode {
            CONNECT => 4,
            SET_PATH => 2,
            _ => 0,
        };
        if needed > 0 && self.random.one_in(2) {
            let length = self.random.below(needed);
            let fields = self.random.bytes(length);
            self.send(first, &fields, &Wire::default());
            return;
        }
        let fields = self.random.bytes(needed);
        let mut rest = Wire::from(headers::some(&mut self.random));
        if opcode == PUT {
            rest.add(&headers::with(BODY, vec![0x61]));
        }
        rest.add(&headers::broken(&mut self.random));
        self.send(first, &fields, &rest);
    }

    /// Now and then something else comes inside an operation than its next packet. True if
    /// the operation is over by it.
    pub fn disturbed(&mut self, opcode: u8) -> bool {
        if !self.random.one_in(10) {
            return false;
        }
        match self.random.below(12) {
            0..=3 => {
                self.abort();
                return true;
            }
            4 | 5 => self.other_opcode(opcode),
            6 => self.unreadable_of(opcode),
            7 => self.unreadable(),
            8 => {
                let rest = headers::broken(&mut self.random);
                let first = self.random.pick(&[ABORT, FINAL | ABORT]);
                self.send(first, &[], &rest.into());
            }
            9 | 10 => self.too_short(),
            _ => {}
        }
        self.ended = true;
        true
    }

    fn other_opcode(&mut self, opcode: u8) {
        let other = match opcode {
            // Each of the sixteen is an operation of its own.
            0x10..=0x1F if self.random.one_in(2) => USER + (opcode + 1) % 16,
            _ => {
                let others: Vec<u8> = OPCODES.into_iter().filter(|o| *o != opcode).collect();
                self.random.pick(&others)
            }
        };
        let fields: &[u8] = match other {
            CONNECT => &[0x10, 0, 1, 0],
            SET_PATH => &[0, 0],
            _ => &[],
        };
        let is_final = !self.random.one_in(3);
        let first = self.first(other, is_final);
        self.send(first, fields, &Wire::default());
    }

    /// A length field under 3, with or without something behind it.
    fn too_short(&mut self) {
        let opcode = self.random.pick(&OPCODES);
        let first = self.first(opcode, true);
        let length = self.random.pick(&[0, 1, 2]);
        let behind = self.random.pick(&[0, 0, 1, 5]);
        let mut packet = Wire::from(vec![first, 0, length]);
        packet.add(&self.random.bytes(behind));
        self.send_raw(packet);
    }

    /// Sessions in which operations are turned away, most of them with SRM on.
    pub fn turned_away(&mut self) {
        self.srm_supported = !self.random.one_in(6);
        let mut asked = self.asked();
        let mut headers = Wire::from(vec![SRM, 1]);
        headers.append(&asked.headers);
        asked.headers = headers;
        asked.srm = true;
        self.connect_with(asked, true);

        for _ in 0..self.random.between(1, 4) {
            match self.random.below(5) {
                0 => self.put(),
                1 => self.small_operation(),
                _ => self.turn_away(),
            }
        }
    }

    /// An operation under an id that is not open, and what follows it in a drain.
    pub fn turn_away(&mut self) {
        let opcode = self
            .random
            .pick(&[PUT, PUT, PUT, GET, GET, GET, ACTION, SET_PATH, DISCONNECT]);
        let is_final = self.random.one_in(5);
        let mut headers = Wire::default();
        headers.add(&headers::some(&mut self.random));
        headers.add(&headers::number(
            CONNECTION_ID,
            self.random.pick(&[0x4711, 0x4712]),
        ));
        if !self.ids.is_empty() && self.random.one_in(3) {
            headers.add(&headers::number(CONNECTION_ID, self.random.pick(&self.ids)));
        }
        let fields: &[u8] = if opcode == SET_PATH { &[0, 0] } else { &[] };
        let first = self.first(opcode, is_final);
        self.send(first, fields, &headers);
        if !is_final && matches!(opcode, PUT | GET) {
            self.drain();
        }
    }

    fn drain(&mut self) {
        for _ in 0..self.random.below(4) {
            let opcode = self.random.pick(&OPCODES);
            self.drained(opcode, false);
        }
        match self.random.below(12) {
            0..=2 => self.abort(),
            3 => {
                self.unreadable();
                self.ended = self.srm;
            }
            4 => {
                self.too_short();
                self.ended = true;
            }
            5 => self.ended = true,
            6 => self.drained(CONNECT, true),
            7 => self.drained(DISCONNECT, true),
            8 => self.drained(SET_PATH, true),
            9 => self.drained(ACTION, true),
            10 => self.drained(GET, true),
            _ => self.drained(PUT, true),
        }
    }

    fn drained(&mut self, opcode: u8, is_final: bool) {
        let limit = self.random.pick(&LIMITS).to_be_bytes();
        let fields: &[u8] = match opcode {
            CONNECT => &[0x10, 0, limit[0], limit[1]],
            SET_PATH => &[0, 0],
            _ => &[],
        };
        let mut headers = Wire::from(headers::some(&mut self.random));
        if self.random.one_in(3) {
            self.add_id(&mut headers);
        }
        if self.random.one_in(4) {
            headers.add(&[SRM_PARAMETER, self.random.pick(&[0, 1, 2])]);
        }
        let first = self.first(opcode, is_final);
        self.send(first, fields, &headers);
    }

    /// Packets with bytes changed, dropped and doubled, and bytes at random.
    pub fn garbage(&mut self) {
        match self.random.below(4) {
            0 => self.small_operations(),
            1 => self.puts(),
            2 => self.gets(),
            _ => return self.random_packets(),
        }
        for place in 0..self.packets.len() {
            if !self.packets[place].has_marks() && self.random.one_in(3) {
                let mut bytes = std::mem::take(&mut self.packets[place].bytes);
                self.damage(&mut bytes);
                self.packets[place] = bytes.into();
            }
        }
    }

    fn damage(&mut self, bytes: &mut Vec<u8>) {
        let place = self.random.below(bytes.len());
        match self.random.below(5) {
            0 => bytes[place] ^= 1 << self.random.below(8),
            1 => bytes[place] = self.random.byte(),
            2 => {
                bytes.remove(place);
            }
            3 => bytes.insert(place, self.random.pick(&[0, 0x48, 0xFF])),
            // The length field, by a little.
            _ if bytes.len() > 2 => {
                let off = self.random.pick(&[1, 2, 0xFF, 0xFE]);
                bytes[2] = bytes[2].wrapping_add(off);
            }
            _ => {}
        }
    }

    /// Whole packets of random bytes.
    fn random_packets(&mut self) {
        for _ in 0..self.random.between(1, 6) {
            let length = self.random.below(12);
            let first = self.random.byte();
            let rest = self.random.bytes(length);
            self.send_raw(long(first, &rest.into()));
        }
    }
}
