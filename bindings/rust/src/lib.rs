//! The front end of an MP3 Layer III reader: from the bytes on a card to the whole numbers of each slot, with a refusal for everything
//! that cannot be read. A safe wrapper around the proved library: nothing unsafe is left to the caller, and memory that is too small is
//! refused by name.
//!
//! A [`Reader`] goes over a card, tells every frame, and empties the reservoir at every gap by itself:
//!
//! ```no_run
//! use front_end::{reorder, Reader, Slot, Step, NUMBERS, SLOT};
//!
//! fn main() -> Result<(), Box<dyn std::error::Error>> {
//!     let card = std::fs::read("card.mp3")?;
//!     let mut numbers = [0; NUMBERS];
//!     let mut reader = Reader::new(&card);
//!     while let Some(step) = reader.next(&mut numbers) {
//!         match step {
//!             Step::Read { at, frame } => {
//!                 for (n, slot) in frame.slots.iter().enumerate() {
//!                     match slot {
//!                         Slot::Read(read) => {
//!                             reorder(&card[at..], n, &mut numbers)?;
//!                             println!("slot {}: {:?} {:?}", n, read.scale, &numbers[SLOT * n..SLOT * (n + 1)]);
//!                         }
//!                         Slot::Refused { refusal, .. } => println!("slot {} is lost: {}", n, refusal),
//!                         Slot::Lacking => {}
//!                     }
//!                 }
//!             }
//!             Step::Short { at, main_data_begin, .. } => {
//!                 println!("the frame at byte {} is lost: it reaches back {} bytes over a gap", at, main_data_begin)
//!             }
//!             Step::Gap { from, to, why } => println!("nothing was read from byte {} to byte {}: {}", from, to, why),
//!         }
//!     }
//!     Ok(())
//! }
//! ```
//!
//! [`Reservoir::frame`] and the functions below are the bare calls, for who keeps place and gaps himself.
mod calls;
mod refusal;
#[cfg(test)]
mod tests;

pub use refusal::Refusal;

/// Bytes of a reservoir.
pub const RESERVOIR: usize = 4096;
/// Slots of a frame, at most.
pub const SLOTS: usize = 4;
/// Numbers of a slot.
pub const SLOT: usize = 576;
/// Numbers to lend for a frame.
pub const NUMBERS: usize = SLOTS * SLOT;
/// Bytes of the longest frame: so many, if the card has them, are always enough.
pub const FRAME: usize = 1441;

// Where in a slot's row the long factors begin, 22 numbers; the short ones, 39; and what the slot's numbers are scaled by, 8.
const LONG_AT: usize = 2;
const SHORT_AT: usize = LONG_AT + 22;
const SCALE_AT: usize = SHORT_AT + 39;
const ROW: usize = SCALE_AT + 8;
const ROWS: usize = SLOTS * ROW;
const LACKING: u16 = 255;

/// A slot that was read: one granule of one channel.
#[derive(Clone, Debug, PartialEq)]
pub struct ReadSlot {
    /// Numbers up to the last that was coded; those after it, up to 576, are 0.
    pub count: usize,
    /// Scale factors of a long block; a mixed one has the first 8 in MPEG-1, else 6.
    pub long: [u16; 22],
    /// Of a short block: for each band, three windows; a mixed one has those from band 3 on.
    pub short: [[u16; 3]; 13],
    /// What its numbers are scaled by.
    pub scale: Scale,
}

/// What a slot's numbers are scaled by, as its record has it.
#[derive(Clone, Copy, Debug, PartialEq)]
pub struct Scale {
    /// Without it an index is no frequency.
    pub block_type: BlockType,
    /// 0 to 255.
    pub global_gain: u16,
    /// A window each, 0 to 7; 0 where the block is not switched.
    pub subblock_gain: [u16; 3],
    pub scalefac_scale: bool,
    /// In MPEG-2 and MPEG-2.5 it is not read: scalefac_compress says it.
    pub preflag: bool,
    /// Of a `Short` block the first 36 numbers are then those of long bands. `Start` and `End` blocks are read as without it.
    pub mixed_block_flag: bool,
}

/// The windows of a slot. Of all but `Short` the n-th number is the n-th frequency; of `Short` three windows share the numbers, in a mixed block
/// those from the 37th on.
#[derive(Clone, Copy, Debug, PartialEq, Eq)]
pub enum BlockType {
    Long = 0,
    Start = 1,
    Short = 2,
    End = 3,
}

/// What became of a slot.
#[derive(Clone, Debug, PartialEq)]
pub enum Slot {
    Read(ReadSlot),
    /// Its 576 numbers have not changed, so the scale is not theirs: it says what the record said of those that are lost.
    Refused { refusal: Refusal, scale: Scale },
    /// The frame has no such slot (mono, MPEG-2 or MPEG-2.5).
    Lacking,
}

/// A frame that was read.
#[derive(Clone, Debug, PartialEq)]
pub struct Frame {
    /// Bytes of the frame: the next one starts so far on.
    pub length: usize,
    /// How many bytes before its own its main data begins, 0 to 511.
    pub main_data_begin: usize,
    /// Granule by granule, channel by channel; the n-th slot's numbers are the 576 from 576 n on.
    pub slots: [Slot; SLOTS],
}

/// A frame that was refused. Nothing that was lent has changed; only where it reached too far back (`Refusal::ShortReservoir`) its main
/// data was added to the reservoir, and its length and main_data_begin are known.
#[derive(Clone, Copy, Debug, PartialEq)]
pub struct RefusedFrame {
    pub refusal: Refusal,
    pub length: Option<usize>,
    /// How many bytes before its own its main data begins; known where the length is.
    pub main_data_begin: Option<usize>,
}

impl std::fmt::Display for RefusedFrame {
    fn fmt(&self, f: &mut std::fmt::Formatter<'_>) -> std::fmt::Result {
        write!(f, "the frame is refused by {}: {:?}", self.refusal.number(), self.refusal)
    }
}

impl std::error::Error for RefusedFrame {}

/// What a header says of its frame, in bytes, granules, channels, samples a second and bits a second.
#[derive(Clone, Copy, Debug, PartialEq)]
pub struct Sizes {
    pub length: usize,
    pub header: usize,
    pub side: usize,
    pub main: usize,
    pub granules: usize,
    pub channels: usize,
    pub rate: u32,
    pub bitrate: u32,
}

/// The bit reservoir: what the frames so far left for the next ones.
#[derive(Clone)]
pub struct Reservoir {
    bytes: [u8; RESERVOIR],
    length: usize,
}

impl Default for Reservoir {
    fn default() -> Self {
        Reservoir::new()
    }
}

impl Reservoir {
    /// An empty one, for the start of a card.
    pub fn new() -> Reservoir {
        Reservoir {
            bytes: [0; RESERVOIR],
            length: calls::emptied(),
        }
    }

    /// For a gap on the card: no byte before it is meant any more.
    pub fn empty(&mut self) {
        self.length = calls::emptied();
    }

    /// How many bytes are in it.
    pub fn length(&self) -> usize {
        self.length
    }

    /// One frame, which starts at the first of the bytes; those beyond it are ignored. `numbers` are at least `NUMBERS`, else the call
    /// is refused by `Refusal::UnfitMemory`. After a frame that was refused otherwise than by `Refusal::ShortReservoir`, and wherever
    /// some of the card is left out, call [`Reservoir::empty`] before the next one: else that may be read from bytes that are not its own,
    /// and nothing can tell. A [`Reader`] does.
    pub fn frame(&mut self, bytes: &[u8], numbers: &mut [i32]) -> Result<Frame, RefusedFrame> {
        let mut rows = [0; ROWS];
        let told = calls::frame(bytes, &mut self.bytes, self.length, numbers, &mut rows);
        self.length = told.reservoir;
        match Refusal::of(told.refusal, told.offset) {
            None => Ok(Frame {
                length: told.length,
                main_data_begin: told.main_data_begin,
                slots: slots_of(&rows),
            }),
            Some(Refusal::ShortReservoir) => Err(RefusedFrame {
                refusal: Refusal::ShortReservoir,
                length: Some(told.length),
                main_data_begin: Some(told.main_data_begin),
            }),
            Some(refusal) => Err(RefusedFrame {
                refusal,
                length: None,
                main_data_begin: None,
            }),
        }
    }

    /// What can still be read of a frame that the card cuts off: its slots from the bytes that it reaches back to, which this reservoir
    /// holds as the frames before it left them, and from what is there of its own. Where too few are held, `Refusal::ShortReservoir`.
    pub fn slots(&self, frame: &[u8], numbers: &mut [i32]) -> Result<[Slot; SLOTS], Refusal> {
        let told = sizes(frame)?;
        let before = told.header + told.side;
        if frame.len() < before {
            return Err(Refusal::AbsentBytes { offset: frame.len() });
        }
        let side = &frame[told.header..];
        let back = if told.granules == 2 {
            usize::from(side[0]) << 1 | usize::from(side[1]) >> 7
        } else {
            usize::from(side[0])
        };
        if back > self.length {
            return Err(Refusal::ShortReservoir);
        }
        let mut main = self.bytes[self.length - back..self.length].to_vec();
        main.extend_from_slice(&frame[before..frame.len().min(told.length)]);
        slots(frame, &main, numbers)
    }
}

/// A card in memory, read frame by frame. It keeps the place and the reservoir, and empties that at every gap, so that no frame is read
/// from bytes that are not its own.
pub struct Reader<'a> {
    card: &'a [u8],
    at: usize,
    reservoir: Reservoir,
}

/// What a reader came to.
#[derive(Clone, Debug, PartialEq)]
pub enum Step {
    /// A frame that was read, and where it starts.
    Read { at: usize, frame: Frame },
    /// A frame that reaches back over more bytes than are held: common after a gap. Its main data is kept for those after it.
    Short { at: usize, length: usize, main_data_begin: usize },
    /// Bytes in which no frame could be read, and why the first could not.
    Gap { from: usize, to: usize, why: Refusal },
}

impl<'a> Reader<'a> {
    /// From the card's first byte on, with an empty reservoir.
    pub fn new(card: &'a [u8]) -> Reader<'a> {
        Reader {
            card,
            at: 0,
            reservoir: Reservoir::new(),
        }
    }

    /// The byte place that comes next.
    pub fn place(&self) -> usize {
        self.at
    }

    /// The next frame or gap, or `None` at the end of the card. Only `Step::Read` changes `numbers`, of which there are `NUMBERS`.
    pub fn next(&mut self, numbers: &mut [i32; NUMBERS]) -> Option<Step> {
        if self.at == self.card.len() {
            return None;
        }
        let at = self.at;
        match self.reservoir.frame(&self.card[at..], numbers) {
            Ok(frame) => {
                self.at += frame.length;
                Some(Step::Read { at, frame })
            }
            Err(RefusedFrame {
                length: Some(length),
                main_data_begin: Some(main_data_begin),
                ..
            }) => {
                self.at += length;
                Some(Step::Short { at, length, main_data_begin })
            }
            Err(refused) => {
                self.reservoir.empty();
                self.at += 1;
                while self.at < self.card.len() && !starts_frame(&self.card[self.at..]) {
                    self.at += 1;
                }
                Some(Step::Gap {
                    from: at,
                    to: self.at,
                    why: refused.refusal,
                })
            }
        }
    }
}

/// Whether a whole frame starts at the first of the bytes, whatever it reaches back to.
fn starts_frame(bytes: &[u8]) -> bool {
    if sizes(bytes).is_err() {
        return false;
    }
    match Reservoir::new().frame(bytes, &mut [0; NUMBERS]) {
        Ok(_) => true,
        Err(refused) => refused.length.is_some(),
    }
}

/// The slots of a frame from given main data of any length: what can still be read where the card has lost some. Of the frame only
/// the header and the side information are read. `numbers` as for a frame. The main data must begin where the frame's does,
/// main_data_begin bytes back: [`Reservoir::slots`] sees to that. From other bytes this reads numbers that were never recorded, and
/// nothing can tell.
pub fn slots(frame: &[u8], main: &[u8], numbers: &mut [i32]) -> Result<[Slot; SLOTS], Refusal> {
    let mut rows = [0; ROWS];
    let told = calls::slots(frame, main, numbers, &mut rows);
    match Refusal::of(told.refusal, told.offset) {
        None => Ok(slots_of(&rows)),
        Some(refusal) => Err(refusal),
    }
}

/// The reorder of one slot's numbers by the frame's own record of the slot: those of a short block stand frequency by frequency after
/// it, in a mixed block those from the 37th on; any other block's stay. `numbers` are the frame's, and the slot's own 576 are picked out of them here, so that no other slot's can
/// be taken for them. A slot that the frame lacks is refused by `Refusal::MadeUpRecord`. Not for a slot that was refused: its numbers are
/// not of this frame.
pub fn reorder(frame: &[u8], slot: usize, numbers: &mut [i32; NUMBERS]) -> Result<(), Refusal> {
    // a slot past the last is lacking in every frame: the call refuses it, and changes nothing
    let from = SLOT * slot.min(SLOTS - 1);
    let told = calls::reorder(frame, slot, &mut numbers[from..from + SLOT]);
    match Refusal::of(told.refusal, told.offset) {
        None => Ok(()),
        Some(refusal) => Err(refusal),
    }
}

/// What follows from a frame's header: 4 bytes are enough, 6 where it has a CRC.
pub fn sizes(frame: &[u8]) -> Result<Sizes, Refusal> {
    let s = calls::sizes(frame);
    match Refusal::of(s.refusal, s.offset) {
        None => Ok(Sizes {
            length: s.length,
            header: s.header,
            side: s.side,
            main: s.main,
            granules: s.granules,
            channels: s.channels,
            rate: s.rate,
            bitrate: s.bitrate,
        }),
        Some(refusal) => Err(refusal),
    }
}

fn slots_of(rows: &[u16; ROWS]) -> [Slot; SLOTS] {
    [slot_of(rows, 0), slot_of(rows, 1), slot_of(rows, 2), slot_of(rows, 3)]
}

fn scale_of(row: &[u16]) -> Scale {
    Scale {
        block_type: match row[0] {
            0 => BlockType::Long,
            1 => BlockType::Start,
            2 => BlockType::Short,
            3 => BlockType::End,
            other => unreachable!("block type {}", other),
        },
        global_gain: row[1],
        subblock_gain: [row[2], row[3], row[4]],
        scalefac_scale: row[5] == 1,
        preflag: row[6] == 1,
        mixed_block_flag: row[7] == 1,
    }
}

fn slot_of(rows: &[u16; ROWS], n: usize) -> Slot {
    let row = &rows[ROW * n..ROW * (n + 1)];
    if row[0] == LACKING {
        return Slot::Lacking;
    }
    let scale = scale_of(&row[SCALE_AT..]);
    if let Some(refusal) = Refusal::of(row[0] as u8, 0) {
        return Slot::Refused { refusal, scale };
    }
    let mut read = ReadSlot {
        count: row[1] as usize,
        long: [0; 22],
        short: [[0; 3]; 13],
        scale,
    };
    read.long.copy_from_slice(&row[LONG_AT..SHORT_AT]);
    for (band, windows) in read.short.iter_mut().enumerate() {
        windows.copy_from_slice(&row[SHORT_AT + 3 * band..][..3]);
    }
    Slot::Read(read)
}
