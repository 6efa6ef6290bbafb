//! Walks over the frames of bytes that are messages, damaged messages or neither.

use crate::c::Frame;
use crate::compare::caller::Caller;
use crate::compare::counts::Entry;
use crate::compare::lockstep::hex;
use crate::compare::wire;

impl Caller {
    /// Walks over some runs of messages, and single steps from anywhere.
    pub fn walks(&mut self) {
        for _ in 0..3 {
            let bodies = self.some_messages();
            let mut bytes = self.run_of(&bodies);
            let damaged = self.random.percent(60);
            if damaged {
                self.damage_run(&mut bytes);
            }
            let frames = self.run.walk(&bytes);
            let given = frames.iter().map(|frame| &bytes[frame.start as usize..][..frame.length as usize]);
            if !damaged && !given.eq(bodies.iter().flatten().map(Vec::as_slice)) {
                self.run.report(Entry::NextFrame, "a walk gave other bodies than were written", &hex(&bytes));
            }
            self.run.message_length(&bytes);
            if self.run.form.takes_any_numbers() {
                (0..6).for_each(|_| self.step_from_anywhere(&bytes, &frames));
            }
        }
    }

    /// The bodies of some messages. Now and then they are all empty.
    fn some_messages(&mut self) -> Vec<Vec<Vec<u8>>> {
        let random = &mut self.random;
        let empty = random.percent(10);
        let mut message = || {
            let frames = random.between(1, 6);
            let mut body = || {
                let length = random.pick(&[0, 0, 1, 2, 8, 30, 255, 256, 300]);
                random.bytes(if empty { 0 } else { length })
            };
            (0..frames).map(|_| body()).collect()
        };
        let messages: Vec<Vec<Vec<u8>>> = (0..5).map(|_| message()).collect();
        messages[self.random.below(6)..].to_vec()
    }

    fn run_of(&mut self, messages: &[Vec<Vec<u8>>]) -> Vec<u8> {
        let long = self.random.percent(30);
        let mut bytes = Vec::new();
        for message in messages {
            let bodies: Vec<&[u8]> = message.iter().map(Vec::as_slice).collect();
            let random = &mut self.random;
            bytes.extend(if long { wire::encode_with_long_sizes(random, &bodies) } else { wire::encode(&bodies) });
        }
        bytes
    }

    /// Damages a run somewhere, mostly at its end; or makes it another run of bytes altogether.
    fn damage_run(&mut self, bytes: &mut Vec<u8>) {
        let length = bytes.len();
        let random = &mut self.random;
        match random.below(8) {
            0 => wire::damage(random, bytes),
            1 => bytes.truncate(random.below(length + 1)),
            2 => bytes.truncate(length.saturating_sub(1)),
            3 => {
                let more = random.between(1, 20);
                bytes.extend(random.bytes(more));
            }
            4 => {
                // A message in which the last frame is broken, or is missing.
                bytes.extend(wire::encode(&[b"key", b"", b"number"]));
                bytes.truncate(bytes.len() - random.between(1, 8));
            }
            5 if length > 0 => bytes[random.below(length)] ^= 1 << random.below(8),
            6 => {
                let size = random.pick(&[u64::MAX, u64::MAX - 8, 1 << 63, u64::MAX - length as u64]);
                bytes.push(random.pick(&[2, 3]));
                bytes.extend(size.to_be_bytes());
            }
            _ => {
                // Small octets are flags and sizes now and then.
                *bytes = (0..random.below(60)).map(|_| random.byte() % 5).collect();
            }
        }
    }

    /// One step after a frame that no walk need have given.
    fn step_from_anywhere(&mut self, bytes: &[u8], frames: &[Frame]) {
        let random = &mut self.random;
        let length = bytes.len() as u64;
        let any = random.next();
        let place = random.next() % (length + 2);
        let mut number = || random.pick(&[0, 0, 1, place, place, length, length + 1, 1 << 63, u64::MAX, any]);
        let mut frame = Frame { start: number(), length: number(), more: 0 };
        if !frames.is_empty() && random.percent(50) {
            frame = random.pick(frames);
        } else if random.percent(30) {
            // The place of the step is in the bytes, though each number alone may not be.
            frame.start = random.pick(&[place, place / 2, 0]);
            frame.length = place - frame.start;
        } else if random.percent(10) {
            frame.length = place.wrapping_sub(frame.start);
        }
        frame.more = random.pick(&[0, 0, 1, 1, 2, 256, 1 << 32, u64::MAX]);
        self.run.step(bytes, frame);
    }
}
