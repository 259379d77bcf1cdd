//! Cutting bytes into frames: how many data bytes an opcode has, and the frame
//! that is half read between two calls.

/// Places of a held frame: an opcode and the 34 data bytes of the longest legal
/// frame.
pub const FRAME_PLACES: usize = 35;

/// The largest legal count of notes in a song and of ids in a list.
pub const MOST_COUNTED: u8 = 16;

/// How the number of an opcode's data bytes is found.
#[derive(Clone, Copy, Debug, PartialEq, Eq)]
pub enum Shape {
    /// The opcode alone fixes it.
    Fixed(u16),
    /// The first data byte says how many follow it.
    Counted,
    /// The second data byte says how many pairs of bytes follow it.
    Song,
}

/// What the base makes of an opcode before it looks at mode or data.
#[derive(Clone, Copy, Debug, PartialEq, Eq)]
pub enum Standing {
    /// It isn't in the frame table.
    Unknown,
    /// It is framed, so that its data don't become opcodes, and no more.
    NotOffered,
    /// It is a command of this base.
    Offered,
}

/// The frame table. The cut follows from it alone, never from the mode.
pub fn shape(opcode: u8) -> Shape {
    match opcode {
        129 | 136 | 138 | 141 | 142 | 147 | 150 | 151 | 155 | 158 => Shape::Fixed(1),
        156 | 157 => Shape::Fixed(2),
        139 | 144 => Shape::Fixed(3),
        137 | 145 => Shape::Fixed(4),
        140 => Shape::Song,
        148 | 149 | 152 => Shape::Counted,
        _ => Shape::Fixed(0),
    }
}

/// Whether an opcode is offered, only framed, or unknown.
pub fn standing(opcode: u8) -> Standing {
    match opcode {
        128..=145 | 147..=151 => Standing::Offered,
        152..=158 => Standing::NotOffered,
        _ => Standing::Unknown,
    }
}

/// The place of the count byte in a frame whose length depends on one.
pub fn count_place(opcode: u8) -> Option<usize> {
    match shape(opcode) {
        Shape::Fixed(_) => None,
        Shape::Counted => Some(1),
        Shape::Song => Some(2),
    }
}

/// How many bytes follow a count byte of this value.
pub fn bytes_after_count(opcode: u8, count: u8) -> u16 {
    match shape(opcode) {
        Shape::Song => 2 * u16::from(count),
        _ => u16::from(count),
    }
}

/// Whether the bytes after the count are kept. Past the legal count, and in a
/// script (152), they are only counted.
pub fn keeps_bytes_after_count(opcode: u8, count: u8) -> bool {
    opcode != 152 && count <= MOST_COUNTED
}

/// The frame that is half read.
#[derive(Clone, Debug, PartialEq, Eq)]
pub struct HeldFrame {
    /// The bytes kept, the opcode first; those not in use are 0.
    pub places: [u8; FRAME_PLACES],
    /// How many places are in use; 0 while nothing is held.
    pub used: u16,
    /// How many bytes are owed; 0 while the length isn't known.
    pub owed: u16,
}

impl Default for HeldFrame {
    fn default() -> Self {
        HeldFrame {
            places: [0; FRAME_PLACES],
            used: 0,
            owed: 0,
        }
    }
}

impl HeldFrame {
    /// The opcode of a frame that has one.
    pub fn opcode(&self) -> u8 {
        self.places[0]
    }

    /// The data bytes kept so far.
    pub fn data(&self) -> &[u8] {
        &self.places[1..usize::from(self.used)]
    }

    /// Takes the next byte, and says whether it completes the frame.
    pub fn take(&mut self, byte: u8) -> bool {
        if self.used == 0 {
            self.keep(byte);
            return match shape(byte) {
                Shape::Fixed(length) => {
                    self.owed = length;
                    length == 0
                }
                Shape::Counted | Shape::Song => false,
            };
        }
        if self.owed > 0 {
            if self.keeps_next() {
                self.keep(byte);
            }
            self.owed -= 1;
            return self.owed == 0;
        }
        self.take_before_length(byte)
    }

    /// Takes a byte of a frame whose length isn't known yet.
    fn take_before_length(&mut self, byte: u8) -> bool {
        let place = usize::from(self.used);
        self.keep(byte);
        if count_place(self.opcode()) != Some(place) {
            return false;
        }
        self.owed = bytes_after_count(self.opcode(), byte);
        self.owed == 0
    }

    /// Whether a byte that is owed is kept, or only counted.
    fn keeps_next(&self) -> bool {
        match count_place(self.opcode()) {
            None => true,
            Some(place) => keeps_bytes_after_count(self.opcode(), self.places[place]),
        }
    }

    fn keep(&mut self, byte: u8) {
        self.places[usize::from(self.used)] = byte;
        self.used += 1;
    }
}
