// The lines: what a replay's line asks, and how an answer is written.

/// A good line: the operation's kind, the thread and the three fields.
#[derive(Clone, Copy, PartialEq, Eq, Debug)]
pub struct Frame {
    pub kind: u8,
    pub thread: u8,
    pub a: u16,
    pub b: u16,
    pub c: u64,
}

#[derive(Clone, Copy, PartialEq, Eq, Debug)]
pub struct Answer {
    pub number: u8,
    pub thread: u8,
    pub value: u64,
}

pub const STEP: u8 = 0x00;
pub const ACQUIRE: u8 = 0x01;
pub const RELEASE: u8 = 0x02;
pub const PROTECT: u8 = 0x03;
pub const TRY: u8 = 0x04;
pub const TRY_PROTECT: u8 = 0x05;
pub const RESET: u8 = 0x06;
pub const RAW: u8 = 0x07;
pub const SWAP: u8 = 0x08;
pub const RETIRE: u8 = 0x09;
pub const EAGER: u8 = 0x0a;
pub const CLEANUP: u8 = 0x0b;
pub const SHUTDOWN: u8 = 0x0c;

pub const FRAME: usize = 28;
pub const ANSWER: usize = 20;

// Which of a, b, c a kind uses. A step's a is its flag.
const USED: [[bool; 3]; 13] = [
    [true, false, true],
    [false, false, false],
    [true, false, false],
    [true, true, false],
    [true, true, true],
    [true, true, true],
    [true, false, false],
    [true, false, true],
    [false, true, true],
    [true, false, true],
    [false, false, false],
    [false, false, false],
    [false, false, false],
];

const BAD: u8 = 0xff;

// The value of a lower-case hexadecimal digit.
const DIGITS: [u8; 256] = {
    let mut digits = [BAD; 256];
    let mut i = 0;
    while i < 16 {
        digits[b"0123456789abcdef"[i] as usize] = i as u8;
        i += 1;
    }
    digits
};

impl Frame {
    /// Reads a line without its newline; none if it is a bad frame.
    pub fn read(line: &[u8]) -> Option<Frame> {
        let line: &[u8; FRAME] = line.try_into().ok()?;
        let mut value = 0u128;
        let mut all = 0;
        for &byte in line {
            let digit = DIGITS[byte as usize];
            all |= digit;
            value = value << 4 | u128::from(digit & 0xf);
        }
        if all > 0xf {
            return None;
        }
        let frame = Frame {
            kind: (value >> 104) as u8,
            thread: (value >> 96) as u8,
            a: (value >> 80) as u16,
            b: (value >> 64) as u16,
            c: value as u64,
        };
        let used = USED.get(frame.kind as usize)?;
        let stray = frame.a != 0 && !used[0] || frame.b != 0 && !used[1] || frame.c != 0 && !used[2];
        (!stray && (frame.kind != STEP || frame.a <= 1)).then_some(frame)
    }

    pub fn write(&self, out: &mut Vec<u8>) {
        let Frame { kind, thread, a, b, c } = *self;
        let value = u128::from(kind) << 104
            | u128::from(thread) << 96
            | u128::from(a) << 80
            | u128::from(b) << 64
            | u128::from(c);
        hexadecimal(value, FRAME, out);
    }
}

impl Answer {
    /// The answer's line, with its newline.
    pub fn write(&self, out: &mut Vec<u8>) {
        let value = u128::from(self.number) << 72 | u128::from(self.thread) << 64 | u128::from(self.value);
        hexadecimal(value, ANSWER, out);
        out.push(b'\n');
    }
}

fn hexadecimal(value: u128, digits: usize, out: &mut Vec<u8>) {
    out.extend((0..digits).rev().map(|i| b"0123456789abcdef"[(value >> (4 * i)) as usize & 0xf]));
}
