//! Put and Get: bodies around the limits, over one packet and many.

use super::headers::{self, BODY, END_OF_BODY, SRM, SRM_PARAMETER};
use super::wire::{hex, Wire};
use super::{Draft, GET, PUT};

/// No more lines of reads than this for one body.
const READS: usize = 24;

impl Draft {
    pub fn transfers(&mut self) {
        if !self.random.one_in(3) {
            self.connect();
        }
        for _ in 0..self.random.between(2, 5) {
            match self.random.below(8) {
                0..=2 => self.put(),
                3 | 4 => self.get(),
                5 => self.turn_away(),
                6 => self.disconnect(),
                _ => self.small_operation(),
            }
        }
    }

    pub fn puts(&mut self) {
        if self.random.one_in(2) {
            self.connect();
        }
        for _ in 0..self.random.between(1, 4) {
            self.put();
        }
    }

    pub fn gets(&mut self) {
        if !self.random.one_in(3) {
            self.connect();
        }
        for _ in 0..self.random.between(1, 3) {
            self.get();
        }
    }

    pub fn put(&mut self) {
        let count = self.random.pick(&[1, 1, 1, 2, 2, 2, 3, 3, 4, 6, 12]);
        let bodies = self.bodies(count);
        let asks = self.random.one_in(2);

        for (place, body) in bodies.iter().enumerate() {
            if place > 0 && self.disturbed(PUT) {
                return;
            }
            let mut headers = Wire::default();
            if place == 0 {
                self.add_id(&mut headers);
            }
            if asks && (place == 0 || self.random.one_in(6)) {
                self.add_srm(&mut headers);
            }
            self.add_parameter(&mut headers);
            if self.random.one_in(3) {
                headers.add(&headers::some(&mut self.random));
            }
            headers.add(body);
            if self.random.one_in(8) {
                headers.add(&headers::some(&mut self.random));
            }
            let first = self.first(PUT, place + 1 == count);
            self.send(first, &[], &headers);
        }
        self.answer_admitted();
    }

    /// SRM asked for, most often so that it is granted; the first of two counts.
    fn add_srm(&mut self, headers: &mut Wire) {
        headers.add(&[SRM, self.random.pick(&[1, 1, 1, 1, 0, 2])]);
        if self.random.one_in(8) {
            headers.add(&[SRM, self.random.pick(&[0, 1, 2])]);
        }
    }

    /// The parameters of SRM; the first of two counts. True if it says to wait.
    fn add_parameter(&mut self, headers: &mut Wire) -> bool {
        if !self.random.one_in(3) {
            return false;
        }
        let parameter = self.random.pick(&[0, 1, 2]);
        headers.add(&[SRM_PARAMETER, parameter]);
        if self.random.one_in(8) {
            headers.add(&[SRM_PARAMETER, self.random.pick(&[0, 1, 2])]);
        }
        parameter > 0
    }

    /// The body headers of each packet of a Put, together about as long as is allowed.
    fn bodies(&mut self, count: usize) -> Vec<Vec<u8>> {
        let mut left = if self.max_object_size < 2000 && !self.random.one_in(4) {
            self.max_object_size
                .saturating_add_signed(self.random.pick(&[-1, 0, 0, 0, 1, 1, 2]))
        } else {
            self.random.pick(&[0, 0, 1, 5, 200])
        };

        let mut bodies = Vec::new();
        for place in 0..count {
            let mut headers = Vec::new();
            for _ in 0..self.random.pick(&[0, 1, 1, 1, 2]) {
                let length = match self.random.below(4) {
                    0 => left,
                    1 => left / 2,
                    2 => left.min(self.random.below(3)),
                    // One that is too long on its own, and others after it that are not.
                    _ if self.random.one_in(5) && left < 2000 => left + 1,
                    _ => left.min(self.random.below(left + 1)),
                };
                left = left.saturating_sub(length);
                headers.extend(self.body_header(place + 1 == count, length));
            }
            bodies.push(headers);
        }
        // What is left goes into the last packet, so that the end is at the limit.
        if left > 0 && !self.random.one_in(4) {
            let last = self.body_header(true, left);
            bodies[count - 1].extend(last);
        }
        bodies
    }

    fn body_header(&mut self, last: bool, length: usize) -> Vec<u8> {
        let ends = last != self.random.one_in(6);
        let id = if ends { END_OF_BODY } else { BODY };
        headers::with(id, self.random.filler(length))
    }

    pub fn get(&mut self) {
        let count = self.random.pick(&[1, 1, 1, 2, 3]);
        let mut srm = self.srm;
        let mut wait = false;
        let asks = self.random.one_in(2);

        for place in 0..count {
            if place > 0 && self.disturbed(GET) {
                return;
            }
            let mut headers = Wire::default();
            if place == 0 {
                self.add_id(&mut headers);
            }
            if asks && (place == 0 || self.random.one_in(6)) {
                self.add_srm(&mut headers);
                srm |= self.srm_supported && place == 0;
            }
            wait = self.add_parameter(&mut headers);
            if self.random.one_in(2) {
                headers.add(&headers::some(&mut self.random));
            }
            let first = self.first(GET, place + 1 == count);
            self.send(first, &[], &headers);
        }

        if !self.admitted {
            return;
        }
        if self.random.one_in(8) {
            self.answer_always();
        } else {
            let granted = asks && srm && !self.srm && count == 1;
            let packets = self.object(granted);
            self.continuations(packets, srm, wait);
        }
    }

    /// The host's object. The number of packets that it takes is the result.
    fn object(&mut self, granted: bool) -> usize {
        // At a large limit everything would fit one packet, so nothing is at an edge there.
        let capacity = self.limit - 3;
        let scale = capacity.min(1021);
        let mut lengths = if granted { vec![2] } else { Vec::new() };
        let mut headers = Vec::new();

        for length in self.object_lengths(scale) {
            let header = headers::single(&mut self.random, length);
            lengths.push(header.len());
            headers.extend(header);
        }
        if self.random.one_in(6) {
            let header = headers::canonical(&headers::any(&mut self.random));
            lengths.push(header.len());
            headers.extend(header);
        }

        let body = (!self.random.one_in(5)).then(|| self.body_length(scale, &lengths));
        let word = if body.is_some() { "body" } else { "nobody" };
        self.answer(&format!("object {} {word}", hex(&headers)));
        if let Some(length) = body {
            self.body_reads(length);
        }
        packets(capacity, &lengths, body)
    }

    /// Lengths of an object's headers, around what a packet holds.
    fn object_lengths(&mut self, capacity: usize) -> Vec<usize> {
        let full = self.random.near(capacity);
        match self.random.below(9) {
            0..=2 => vec![],
            3 => vec![5],
            4 | 5 => vec![full],
            6 => vec![5, full],
            7 => vec![capacity - 50, capacity - 50, full],
            _ => vec![self.random.between(6, 100), full - full / 3, 20],
        }
    }

    /// A length of the body around what the packets hold after the headers.
    fn body_length(&mut self, capacity: usize, headers: &[usize]) -> usize {
        let used: usize = headers.iter().sum();
        let space = capacity.saturating_sub(used % capacity);
        match self.random.below(8) {
            0 => 0,
            1 => self.random.below(4),
            2 | 3 => self.random.near(space.saturating_sub(3)),
            4 => self.random.near(space.saturating_sub(3) + capacity - 3),
            5 => self.random.near(capacity - 3),
            6 => self.random.near(2 * (capacity - 3)),
            _ => self.random.below(3 * capacity),
        }
    }

    /// What the reads of a body give: all that is asked for, or less, or a failure.
    fn body_reads(&mut self, length: usize) {
        let step = match self.random.below(5) {
            0 => 1,
            1 => self.random.between(2, 40),
            2 => self.random.pick(&[248, 249, 250, 251, 252]),
            _ => length,
        };
        let fails = self.random.one_in(14);
        let mut left = length;
        for _ in 0..READS {
            if left == 0 {
                break;
            }
            let read = step.min(left);
            let bytes = self.random.filler(read);
            self.answer(&format!("read {}", hex(&bytes)));
            left -= read;
            if fails && self.random.one_in(3) {
                self.answer("readfail");
                return;
            }
        }
        if left > 0 {
            let bytes = self.random.filler(left);
            self.answer(&format!("read {}", hex(&bytes)));
        }
        self.answer(if fails { "readfail" } else { "read -" });
    }

    /// The packets between those of the object: as many as are read, or one less.
    fn continuations(&mut self, packets: usize, srm: bool, mut wait: bool) {
        for _ in 1..packets {
            if srm && !wait {
                continue;
            }
            if self.disturbed(GET) {
                return;
            }
            let mut headers = Wire::default();
            wait = self.add_parameter(&mut headers);
            if self.random.one_in(6) {
                headers.add(&headers::some(&mut self.random));
                self.add_id(&mut headers);
            }
            let is_final = !self.random.one_in(4);
            let first = self.first(GET, is_final);
            self.send(first, &[], &headers);
        }
    }
}

/// How many packets an object takes.
fn packets(capacity: usize, headers: &[usize], body: Option<usize>) -> usize {
    let mut count = 1;
    let mut space = capacity;
    for length in headers {
        if *length > capacity {
            return count;
        }
        if *length > space {
            count += 1;
            space = capacity;
        }
        space -= length;
    }

    let Some(mut left) = body else {
        return count;
    };
    if space < 3 {
        count += 1;
        space = capacity;
    }
    while left > space - 3 {
        left -= space - 3;
        count += 1;
        space = capacity;
    }
    count
}
