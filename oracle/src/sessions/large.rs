//! Sessions with packets of 64 KiB, few since their transcripts are long.

use super::headers::{self, BODY, CHALLENGE, END_OF_BODY, SRM, TARGET};
use super::wire::{hex, long, Wire};
use super::{Draft, ACTION, CONNECT, FINAL, GET, PUT, SET_PATH};

/// The longest packet and what it holds after its first three bytes.
const PACKET: usize = 65_535;
const CAPACITY: usize = PACKET - 3;

impl Draft {
    pub fn large_session(&mut self) {
        self.large = true;
        match self.random.below(10) {
            0 | 1 => self.large_target(),
            2 | 3 => self.large_credentials(),
            4 | 5 => self.large_reply(),
            6 => self.large_get(),
            7 => self.large_put(),
            8 => self.large_text(),
            _ => self.large_gathered(),
        }
    }

    fn large_limit(&mut self) -> u16 {
        self.random
            .pick(&[65_535, 65_535, 65_535, 65_534, 65_533, 255])
    }

    fn large_connect(&mut self, headers: &Wire) {
        let limit = self.large_limit();
        let [high, low] = limit.to_be_bytes();
        self.limit = usize::from(limit);
        self.send(FINAL | CONNECT, &[0x10, 0, high, low], headers);
    }

    /// Credentials are asked for before the reply is found too long, with them or without.
    fn large_credentials(&mut self) {
        let mut list = Wire::default();
        list.tag(0, &self.random.bytes(16).into());
        self.large_connect(&long(CHALLENGE, &list));
        self.answer("credentials nouser 31");

        let with = PACKET - 39;
        let total = self
            .random
            .pick(&[with, with + 1, PACKET, PACKET + 1, PACKET + 4]);
        let header = headers::single(&mut self.random, total - 7);
        self.answer_reply(0x20, &header);
        self.after();
    }

    /// A reply to Connect of about 65,535 bytes, by a Target that comes back as Who or by
    /// what the host gives.
    fn large_target(&mut self) {
        self.srm_supported = self.random.one_in(2);
        let mut fixed = 7 + 5 + 3;
        let mut headers = Wire::default();
        if self.random.one_in(3) {
            headers.add(&[SRM, 1]);
            fixed += if self.srm_supported { 2 } else { 0 };
        }

        let total = self.random.near(PACKET);
        if self.random.one_in(2) {
            let target = (total - fixed).min(CAPACITY - 7 - headers.len());
            headers.add(&headers::with(TARGET, self.random.filler(target)));
            self.large_connect(&headers);
        } else {
            headers.add(&headers::with(TARGET, vec![]));
            let header = headers::single(&mut self.random, (total - fixed).min(PACKET - 1));
            self.large_connect(&headers);
            self.answer_reply(0x20, &header);
        }
        self.after();
    }

    fn large_reply(&mut self) {
        self.large_connect(&Wire::default());
        self.answer_reply(0x20, &[]);
        for _ in 0..self.random.between(1, 2) {
            let opcode = self.random.pick(&[PUT, SET_PATH, ACTION, GET]);
            let fields: &[u8] = if opcode == SET_PATH { &[0, 0] } else { &[] };
            self.send(FINAL | opcode, fields, &Wire::default());
            let limit = self.limit.max(255);
            let length = self.random.pick(&[limit, PACKET]);
            let length = self.random.near(length - 3).min(PACKET - 1);
            let headers = headers::single(&mut self.random, length);
            self.answer_reply(0x20, &headers);
        }
        self.after();
    }

    fn large_get(&mut self) {
        self.large_connect(&Wire::default());
        self.answer_reply(0x20, &[]);
        let capacity = self.limit.max(255) - 3;
        let header = match self.random.below(3) {
            0 => self.random.near(capacity).min(PACKET - 1),
            1 => 200,
            _ => 0,
        };
        let header = headers::single(&mut self.random, header);
        let space = capacity.saturating_sub(header.len());
        let body = self.random.near(space.saturating_sub(3));
        let body = body + self.random.pick(&[0, 0, capacity - 3]);

        self.answer(&format!("object {} body", hex(&header)));
        let body = self.random.filler(body);
        let first = body
            .len()
            .min(self.random.pick(&[1, 40_000, 65_530, 200_000]));
        for part in [&body[..first], &body[first..]] {
            if !part.is_empty() {
                self.answer(&format!("read {}", hex(part)));
            }
        }
        self.answer("read -");
        self.send(FINAL | GET, &[], &Wire::default());
        for _ in 0..self.random.below(4) {
            self.send(FINAL | GET, &[], &Wire::default());
        }
    }

    /// Bodies of a packet's length, the Put limit around their sum.
    fn large_put(&mut self) {
        let count = self.random.between(1, 2);
        let length = CAPACITY - 3;
        self.max_object_size = self.random.near(count * length);
        if self.random.one_in(4) {
            self.max_object_size = self.random.pick(&[65_535, 65_536, 1_048_575]);
        }
        for place in 0..count {
            let last = place + 1 == count;
            let length = if last {
                self.random.near(length).min(length)
            } else {
                length
            };
            let id = if last { END_OF_BODY } else { BODY };
            let body = headers::with(id, self.random.filler(length));
            self.send(if last { FINAL | PUT } else { PUT }, &[], &body.into());
        }
        self.after();
    }

    /// Text that grows when its ill-formed parts are replaced, here beyond what the writer
    /// can write.
    fn large_text(&mut self) {
        let id = self.random.pick(&[0x42, 0x44, 0x01, 0x30]);
        let byte = self.random.pick(&[0xFF, 0x80, 0xED, 0xD8, 0x61]);
        let length = self.random.pick(&[21_840, 21_844, 21_845, 40_000, 65_529]);
        let text = headers::with(id, vec![byte; length]);
        let opcode = self.random.pick(&[PUT, ACTION, GET]);
        self.send(FINAL | opcode, &[], &text.into());
        self.after();
    }

    /// Kept headers of 65,535 bytes together, the most that there may be, and a few less.
    fn large_gathered(&mut self) {
        let opcode = self.random.pick(&[PUT, GET, ACTION]);
        let total = self.random.pick(&[65_535, 65_534, 65_533, 65_532]);
        let first = self.random.pick(&[3, 30_000, 65_532, 65_530]);
        let mut left = total;
        for length in [first, total - first] {
            left -= length;
            let header = headers::single(&mut self.random, length);
            self.send(
                if left == 0 { FINAL | opcode } else { opcode },
                &[],
                &header.into(),
            );
        }
        self.after();
    }

    fn after(&mut self) {
        self.send(FINAL | PUT, &[], &Wire::default());
    }
}
