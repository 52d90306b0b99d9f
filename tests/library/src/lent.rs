// A slice lent to a call, and the plan's bytes, each in the middle of a larger buffer.

// Bytes looked at on each side of a slice.
pub const GUARD: usize = 64;

// Room on each side, so that a call that writes too far writes over nothing else.
const ROOM: usize = 32 * 1024;

// The greatest length lent, in bytes.
const LONGEST: usize = 32 * 1024;

// A buffer in which each call gets a slice of its own; every byte in the slice and around it says its position and the
// call.
pub struct Lent {
    buffer: Vec<u8>,
    first: usize,
    length: usize,
    call: u64,
}

impl Lent {
    pub fn new() -> Lent {
        Lent { buffer: vec![0; ROOM + LONGEST + ROOM], first: ROOM, length: 0, call: 0 }
    }

    // A slice of `length` bytes at an address that leaves `rest` when divided by 16.
    pub fn lend(&mut self, length: usize, rest: usize) -> *mut u8 {
        assert!(length + 16 <= LONGEST && rest < 16);
        self.call += 1;
        self.length = length;
        self.first = ROOM + (16 + rest - (self.buffer.as_ptr() as usize + ROOM) % 16) % 16;
        for at in self.around() {
            self.buffer[at] = pattern(self.call, at);
        }
        self.buffer[self.first..].as_mut_ptr()
    }

    // The positions of the slice and of the bytes looked at on each side.
    fn around(&self) -> std::ops::Range<usize> {
        self.first - GUARD..self.first + self.length + GUARD
    }

    // After a call that wrote `written` to the front of the slice: everything else is as it was.
    pub fn check(&self, written: &[u8]) -> Result<(), String> {
        for at in self.around() {
            let own = at.checked_sub(self.first).and_then(|at| written.get(at));
            let wanted = own.copied().unwrap_or(pattern(self.call, at));
            if self.buffer[at] != wanted {
                let is = format!("is {} and not {wanted}", self.buffer[at]);
                return Err(format!("{} {is}", self.named(at, written.len())));
            }
        }
        Ok(())
    }

    fn named(&self, at: usize, written: usize) -> String {
        if at < self.first {
            return format!("the byte {} in front of the slice", self.first - at);
        }
        match at - self.first {
            byte if byte >= self.length => format!("the byte {} behind the slice", byte - self.length + 1),
            byte if byte >= written => format!("byte {byte} of the slice, behind what is written,"),
            byte => format!("byte {byte} of the slice"),
        }
    }
}

// The byte at a position before a call.
fn pattern(call: u64, at: usize) -> u8 {
    ((at as u64).wrapping_mul(0x9E37_79B9_7F4A_7C15) ^ call.wrapping_mul(0xD1B5_4A32_D192_ED03)).to_be_bytes()[0]
}

// A plan's bytes between guards.
pub struct Guarded {
    buffer: Vec<u8>,
    kept: Vec<u8>,
    first: usize,
    length: usize,
}

impl Guarded {
    // At an address that leaves `rest` when divided by 16.
    pub fn new(bytes: &[u8], rest: usize) -> Guarded {
        let mut buffer: Vec<u8> = (0..GUARD + 16 + bytes.len() + GUARD).map(|at| pattern(0, at)).collect();
        let first = GUARD + (16 + rest - (buffer.as_ptr() as usize + GUARD) % 16) % 16;
        buffer[first..first + bytes.len()].copy_from_slice(bytes);
        Guarded { kept: buffer.clone(), buffer, first, length: bytes.len() }
    }

    pub fn pointer(&mut self) -> *const u8 {
        self.buffer[self.first..].as_mut_ptr()
    }

    pub fn length(&self) -> usize {
        self.length
    }

    // Whether the bytes and those around them are as they were.
    pub fn unchanged(&self) -> bool {
        self.buffer == self.kept
    }
}
