//! The proved desk as a gate whose every byte is checked around each call, and a reader of the
//! documented layout.

pub mod calls;
pub mod layout;
pub mod scrambled;

use std::cell::RefCell;
use std::fmt::{self, Arguments, Debug, Formatter};
use std::ops::Range;

use days::gate::{Gate, GroupPosition, InstrumentPosition};
use reference::{Desk, MEMORY};

use calls::{Calls, PROVED};
use layout::{Field, Words};

/// How many bytes stand on each side of the lent memory. An odd number, so that no word of the
/// memory is aligned.
const MARGIN: usize = 65;

/// How many bytes are lent behind the first 65,536 where no other length is asked for.
const TAIL: usize = 200;

/// What a report holds before it is read.
const UNREAD: i64 = 0x5a5a_1234_5a5a_4321;

/// The proved desk on memory of its own. A call panics if it changes a byte that it must not: a
/// refusal or a reading any, an acceptance one that is not among the first 65,536, a refused
/// reading one of its report.
#[derive(Clone)]
pub struct ProvedDesk {
    calls: Calls,
    /// The margin, the lent memory, the margin.
    bytes: RefCell<Vec<u8>>,
    /// What the bytes must be: as the last accepted call left them.
    kept: Vec<u8>,
}

impl Default for ProvedDesk {
    /// On patterned memory that is long enough, has a tail and holds no desk.
    fn default() -> ProvedDesk {
        ProvedDesk::new(MEMORY + TAIL)
    }
}

impl ProvedDesk {
    /// On patterned memory of this length that holds no desk.
    pub fn new(length: usize) -> ProvedDesk {
        ProvedDesk::with(PROVED, length)
    }

    /// By other functions than the proved ones.
    pub fn with(calls: Calls, length: usize) -> ProvedDesk {
        let bytes: Vec<u8> = (0..length + 2 * MARGIN).map(pattern).collect();
        ProvedDesk {
            calls,
            kept: bytes.clone(),
            bytes: RefCell::new(bytes),
        }
    }

    /// On a copy of this memory.
    pub fn holding(memory: &[u8]) -> ProvedDesk {
        let mut desk = ProvedDesk::new(memory.len());
        desk.put(0, memory);
        desk
    }

    /// The lent memory.
    pub fn memory(&self) -> &[u8] {
        &self.kept[self.lent()]
    }

    /// The words of the lent memory, which is long enough.
    pub fn words(&self) -> Words<'_> {
        Words::of(self.memory()).expect("a memory that is long enough")
    }

    /// The desk that the lent memory holds, by its layout.
    pub fn desk(&self) -> Option<Desk> {
        Words::of(self.memory())?.desk()
    }

    /// Writes bytes into the lent memory.
    pub fn put(&mut self, place: usize, bytes: &[u8]) {
        let place = MARGIN + place..MARGIN + place + bytes.len();
        assert!(place.end <= self.lent().end, "past the lent memory");
        self.kept[place.clone()].copy_from_slice(bytes);
        self.bytes.get_mut()[place].copy_from_slice(bytes);
    }

    /// Writes a word into the lent memory.
    pub fn put_word(&mut self, word: usize, value: u64) {
        self.put(8 * word, &value.to_le_bytes());
    }

    /// Writes a field into the lent memory: of a half word the lower half of the value.
    pub fn put_field(&mut self, field: Field, value: u64) {
        let bytes = field.bytes();
        self.put(bytes.start, &value.to_le_bytes()[..bytes.len()]);
    }

    pub fn open(&mut self, roster: &[u8]) -> u8 {
        let lent = self.lent();
        let answer = (self.calls.open)(&mut self.bytes.get_mut()[lent], roster);
        self.settle("an opening", answer);
        answer
    }

    pub fn event(&mut self, event: &[u8]) -> u8 {
        let lent = self.lent();
        let answer = (self.calls.event)(&mut self.bytes.get_mut()[lent], event);
        self.settle("an event", answer);
        answer
    }

    #[cfg(feature = "loading")]
    pub fn load_limits(&mut self, file: &[u8]) -> u8 {
        let lent = self.lent();
        let answer = (self.calls.load_limits)(&mut self.bytes.get_mut()[lent], file);
        self.settle("a load", answer);
        answer
    }

    /// S, PCI and PVI, or the number of a refusal.
    pub fn instrument_position(
        &self,
        account: u16,
        instrument: u16,
    ) -> Result<InstrumentPosition, u8> {
        let read = self.calls.instrument_position;
        let [balance, long, short] =
            self.read(|memory, report| read(memory, account, instrument, report))?;
        Ok(InstrumentPosition {
            balance,
            long,
            short,
        })
    }

    /// PCC and PVC in ten-thousandths, or the number of a refusal.
    pub fn group_position(&self, account: u16, group: u16) -> Result<GroupPosition, u8> {
        let read = self.calls.group_position;
        let [long, short] = self.read(|memory, report| read(memory, account, group, report))?;
        Ok(GroupPosition { long, short })
    }

    fn lent(&self) -> Range<usize> {
        MARGIN..self.kept.len() - MARGIN
    }

    /// Keeps what an acceptance wrote to the first 65,536 bytes; nothing else may have changed.
    fn settle(&mut self, call: &str, answer: u8) {
        let bytes = self.bytes.get_mut();
        if answer == 0 {
            let desk = MARGIN..MARGIN + MEMORY;
            self.kept[desk.clone()].copy_from_slice(&bytes[desk]);
        }
        assert_kept(format_args!("{call} answered {answer}"), bytes, &self.kept);
    }

    fn read<const N: usize>(
        &self,
        read: impl Fn(&mut [u8], &mut [i64; N]) -> u8,
    ) -> Result<[i64; N], u8> {
        let mut bytes = self.bytes.borrow_mut();
        let mut report = [UNREAD; N];
        let answer = read(&mut bytes[self.lent()], &mut report);
        assert_kept(format_args!("a reading"), &bytes, &self.kept);
        if answer == 0 {
            return Ok(report);
        }
        assert_eq!(report, [UNREAD; N], "a refused reading wrote its report");
        Err(answer)
    }
}

/// Two desks are equal if all bytes are, those that are not lent too.
impl PartialEq for ProvedDesk {
    fn eq(&self, other: &ProvedDesk) -> bool {
        self.kept == other.kept
    }
}

impl Debug for ProvedDesk {
    fn fmt(&self, formatter: &mut Formatter) -> fmt::Result {
        write!(formatter, "{:?}", self.desk())
    }
}

impl Gate for ProvedDesk {
    fn open(&mut self, roster: &[u8]) -> u8 {
        ProvedDesk::open(self, roster)
    }

    fn event(&mut self, event: &[u8]) -> u8 {
        ProvedDesk::event(self, event)
    }

    fn instrument_position(&self, account: u16, instrument: u16) -> Result<InstrumentPosition, u8> {
        ProvedDesk::instrument_position(self, account, instrument)
    }

    fn group_position(&self, account: u16, group: u16) -> Result<GroupPosition, u8> {
        ProvedDesk::group_position(self, account, group)
    }
}

/// The byte at a place before anything is written. No byte is 0 or 1.
fn pattern(place: usize) -> u8 {
    (place as u8).wrapping_mul(37) | 2
}

/// Fails where a byte is not what was kept. Its place is counted from the lent memory's first.
fn assert_kept(call: Arguments, bytes: &[u8], kept: &[u8]) {
    if bytes != kept {
        let changed = bytes.iter().zip(kept).position(|(byte, kept)| byte != kept);
        let place = changed.map(|place| place as i64 - MARGIN as i64);
        panic!("{call} changed byte {place:?}");
    }
}
