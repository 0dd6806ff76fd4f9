// Stores of reports: each partition numbers its own, from 1.

use crate::messages::Partition;
use crate::reports::Report;
use std::ops::{Index, IndexMut};

/// How many reports a day has at most.
pub const REPORTS: usize = 16_384;
/// How many bytes the longest message has.
pub const MESSAGE_BYTES: usize = 145;

pub const PARTITIONS: [Partition; 3] = [Partition::One, Partition::Two, Partition::Three];

/// One thing for each partition.
#[derive(Default)]
pub struct PerPartition<T>([T; 3]);

impl<T> PerPartition<T> {
    pub fn new(make: impl Fn(Partition) -> T) -> PerPartition<T> {
        PerPartition(PARTITIONS.map(make))
    }
}

impl<T> Index<Partition> for PerPartition<T> {
    type Output = T;

    #[inline]
    fn index(&self, partition: Partition) -> &T {
        &self.0[partition as usize - 1]
    }
}

impl<T> IndexMut<Partition> for PerPartition<T> {
    #[inline]
    fn index_mut(&mut self, partition: Partition) -> &mut T {
        &mut self.0[partition as usize - 1]
    }
}

pub trait Store {
    /// How many more reports are sure to find a place.
    fn places(&self) -> usize;

    /// The number of a partition's last report; 0 where it has none.
    fn last(&self, partition: Partition) -> u32;

    /// Keeps a report of a CompID's, and says its number; none where no place is free.
    fn append(&mut self, partition: Partition, owner: u8, report: &Report) -> Option<u32>;

    /// The lowest number above a given one whose report is the CompID's.
    fn next(&self, partition: Partition, owner: u8, above: u32) -> Option<u32>;

    /// Writes the message of a report to the front of a buffer, and says how many bytes it has; 0 where there is none.
    fn message(&self, partition: Partition, number: u32, out: &mut [u8]) -> usize;
}

/// The items of a partition, in memory that is taken at the start, and their owners beside them for the search.
struct Series<T> {
    items: Vec<T>,
    owners: Vec<u8>,
}

impl<T> Series<T> {
    fn new() -> Series<T> {
        Series { items: Vec::with_capacity(REPORTS), owners: Vec::with_capacity(REPORTS) }
    }

    fn push(&mut self, owner: u8, item: T) -> u32 {
        self.items.push(item);
        self.owners.push(owner);
        self.last()
    }

    fn item(&self, number: u32) -> Option<&T> {
        self.items.get(number.checked_sub(1)? as usize)
    }

    fn last(&self) -> u32 {
        self.items.len() as u32
    }

    #[inline]
    fn next(&self, owner: u8, above: u32) -> Option<u32> {
        let between = place_of(owner, self.owners.get(above as usize..)?)?;
        Some(above + between as u32 + 1)
    }
}

// The place of the first of the bytes that is a given one, eight at a time.
#[inline]
fn place_of(byte: u8, bytes: &[u8]) -> Option<usize> {
    const ONES: u64 = u64::from_le_bytes([0x01; 8]);
    const HIGHS: u64 = u64::from_le_bytes([0x80; 8]);
    let (words, rest) = bytes.as_chunks();
    for (at, word) in words.iter().enumerate() {
        // a byte is null where the given one stands; the lowest high bit that is left is that of the first null
        let differing = u64::from_le_bytes(*word) ^ (ONES * u64::from(byte));
        let nulls = differing.wrapping_sub(ONES) & !differing & HIGHS;
        if nulls != 0 {
            return Some(at * 8 + nulls.trailing_zeros() as usize / 8);
        }
    }
    let at = rest.iter().position(|other| *other == byte)?;
    Some(words.len() * 8 + at)
}

fn kept<T>(series: &PerPartition<Series<T>>) -> usize {
    series.0.iter().map(|series| series.items.len()).sum()
}

/// Keeps reports as they are.
pub struct Records {
    reports: PerPartition<Series<Report>>,
}

impl Records {
    pub fn new() -> Records {
        Records { reports: PerPartition::new(|_| Series::new()) }
    }
}

impl Store for Records {
    fn places(&self) -> usize {
        REPORTS - kept(&self.reports)
    }

    fn last(&self, partition: Partition) -> u32 {
        self.reports[partition].last()
    }

    fn append(&mut self, partition: Partition, owner: u8, report: &Report) -> Option<u32> {
        (self.places() > 0).then(|| self.reports[partition].push(owner, *report))
    }

    fn next(&self, partition: Partition, owner: u8, above: u32) -> Option<u32> {
        self.reports[partition].next(owner, above)
    }

    fn message(&self, partition: Partition, number: u32, out: &mut [u8]) -> usize {
        match self.reports[partition].item(number) {
            Some(report) => report.write(partition, number, out),
            None => 0,
        }
    }
}

/// Where the bytes of a message lie.
struct Place {
    start: u32,
    len: u32,
}

/// Keeps reports as the bytes of their messages, one behind the other.
pub struct WireBytes {
    buffer: Box<[u8]>,
    used: usize,
    places: PerPartition<Series<Place>>,
}

impl WireBytes {
    pub fn new() -> WireBytes {
        WireBytes {
            buffer: vec![0; REPORTS * MESSAGE_BYTES].into_boxed_slice(),
            used: 0,
            places: PerPartition::new(|_| Series::new()),
        }
    }
}

impl Store for WireBytes {
    fn places(&self) -> usize {
        let room = (self.buffer.len() - self.used) / MESSAGE_BYTES;
        room.min(REPORTS - kept(&self.places))
    }

    fn last(&self, partition: Partition) -> u32 {
        self.places[partition].last()
    }

    fn append(&mut self, partition: Partition, owner: u8, report: &Report) -> Option<u32> {
        if self.places() == 0 {
            return None;
        }
        let start = self.used;
        let len = report.write(partition, self.last(partition) + 1, &mut self.buffer[start..]);
        self.used += len;
        let place = Place { start: start as u32, len: len as u32 };
        Some(self.places[partition].push(owner, place))
    }

    fn next(&self, partition: Partition, owner: u8, above: u32) -> Option<u32> {
        self.places[partition].next(owner, above)
    }

    // The bytes as they are kept: nothing is read back.
    fn message(&self, partition: Partition, number: u32, out: &mut [u8]) -> usize {
        let Some(place) = self.places[partition].item(number) else {
            return 0;
        };
        let (start, len) = (place.start as usize, place.len as usize);
        out[..len].copy_from_slice(&self.buffer[start..start + len]);
        len
    }
}
