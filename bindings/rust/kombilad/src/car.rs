//! CAR files, read one section after another.

use std::io::{self, ErrorKind, Read};
use std::iter::FusedIterator;
use std::{error, fmt};

use crate::cid::Cid;
use crate::error::{CarError, Error};
use crate::ffi::{self, CarPart, Place, SectionSpans};

/// The minimum number of bytes in a request to the reader.
const CHUNK: usize = 1 << 16;
/// The byte of a CAR of version 2 at which its header has the offset of the payload.
const PLACE_OF_PAYLOAD: usize = 27;

/// An error of reading a CAR.
#[derive(Debug)]
#[non_exhaustive]
pub enum CarReadError {
    /// The reader failed.
    Io(io::Error),
    /// The bytes are not a CAR, its header is not a block or exceeds a limit, or an allocation
    /// failed.
    Car(Error),
}

impl fmt::Display for CarReadError {
    fn fmt(&self, f: &mut fmt::Formatter<'_>) -> fmt::Result {
        match self {
            CarReadError::Io(error) => error.fmt(f),
            CarReadError::Car(error) => error.fmt(f),
        }
    }
}

impl error::Error for CarReadError {
    fn source(&self) -> Option<&(dyn error::Error + 'static)> {
        match self {
            CarReadError::Io(error) => Some(error),
            CarReadError::Car(error) => Some(error),
        }
    }
}

impl From<io::Error> for CarReadError {
    fn from(error: io::Error) -> Self {
        CarReadError::Io(error)
    }
}

impl From<Error> for CarReadError {
    fn from(error: Error) -> Self {
        CarReadError::Car(error)
    }
}

/// A section of a CAR.
#[derive(Clone, Copy, Debug, PartialEq, Eq)]
pub struct Section<'r> {
    /// The CID. Call [`Cid::verify`] to check that the data has its digest.
    pub cid: Cid,
    /// The block.
    pub data: &'r [u8],
}

/// Reads the blocks of a CAR of version 1 or 2, one after another. It buffers one section and the
/// bytes read after it, so the reader needs no buffer of its own.
///
/// ```
/// use kombilad::{CarReader, CarWriter, Cid, RAW};
///
/// let cid = Cid::of_block(RAW, b"a block");
/// let mut car = CarWriter::new(Vec::new(), &[cid])?;
/// car.write(&cid, b"a block")?;
///
/// let bytes = car.into_inner();
/// let mut car = CarReader::new(&bytes[..])?;
/// assert_eq!((car.version(), car.roots()), (1, &[cid][..]));
/// while let Some(section) = car.next_section()? {
///     section.cid.verify(section.data)?;
/// }
/// # Ok::<(), Box<dyn std::error::Error>>(())
/// ```
///
/// In a CAR of version 2 it reads the payload, but not the index. As an iterator it copies each
/// block. After an error it ends.
#[derive(Debug)]
pub struct CarReader<R> {
    reader: R,
    /// The bytes that were read, up to `end`. Those from `begin` on are not consumed yet. After
    /// them there is room for the next ones.
    window: Vec<u8>,
    begin: usize,
    end: usize,
    /// Whether the reader has ended.
    ended: bool,
    /// The place in the file where the next section begins, and where the last one ends.
    place: Place,
    done: bool,
    roots: Vec<Cid>,
    section_limit: usize,
}

impl<R: Read> CarReader<R> {
    /// The maximum number of bytes of a header.
    pub const HEADER_LIMIT: usize = 8 << 20;
    /// The default maximum number of bytes of a section.
    pub const SECTION_LIMIT: usize = 32 << 20;

    /// Reads the header, up to the first section.
    ///
    /// # Errors
    ///
    /// [`CarReadError`]. It is [`CarError::TooLong`] if the header has more than
    /// [`Self::HEADER_LIMIT`] bytes, or if more than about twice as many bytes come before the
    /// first section of a CAR of version 2.
    pub fn new(reader: R) -> Result<Self, CarReadError> {
        let mut car = CarReader {
            reader,
            window: Vec::new(),
            begin: 0,
            end: 0,
            ended: false,
            place: Place { version: 0, at: 0, end: 0 },
            done: false,
            roots: Vec::new(),
            section_limit: Self::SECTION_LIMIT,
        };
        let most = 2 * Self::HEADER_LIMIT + CHUNK;
        let mut wanted = 1;
        loop {
            car.fill(wanted)?;
            let window = &car.window[..car.end];
            let found = ffi::car_open_part(window, car.ended, Self::HEADER_LIMIT);
            match found.map_err(Error::of_car)? {
                CarPart::Found((place, roots)) => {
                    // The header is in memory.
                    car.begin = place.at as usize;
                    car.place = place;
                    car.roots = roots;
                    return Ok(car);
                }
                CarPart::More(_) if car.end >= most => {
                    let (error, offset) = (CarError::TooLong, PLACE_OF_PAYLOAD);
                    return Err(Error::Car { error, offset }.into());
                }
                CarPart::More(more) => wanted = with(car.end, more).min(most),
            }
        }
    }

    /// Sets the maximum number of bytes of a section.
    #[must_use]
    pub fn with_section_limit(mut self, limit: usize) -> Self {
        self.section_limit = limit;
        self
    }

    /// Returns the version, 1 or 2.
    pub fn version(&self) -> u64 {
        self.place.version
    }

    /// Returns the roots.
    pub fn roots(&self) -> &[Cid] {
        &self.roots
    }

    /// Returns the next section, or `None` after the last one or an error.
    ///
    /// # Errors
    ///
    /// [`CarReadError`]. It is [`CarError::TooLong`] if the section is longer than the limit.
    pub fn next_section(&mut self) -> Result<Option<Section<'_>>, CarReadError> {
        if self.done {
            return Ok(None);
        }
        self.done = true;
        let (cid, data) = match self.read_section()? {
            Some(found) => found,
            None => return Ok(None),
        };
        self.done = false;
        let (window, length) = (&self.window[self.begin..self.end], data.end);
        let section = Section { cid: Cid::of_valid(&window[cid]), data: &window[data] };
        self.begin += length;
        Ok(Some(section))
    }

    /// Returns the ranges of the next section's CID and data. They count from `begin` on.
    fn read_section(&mut self) -> Result<Option<SectionSpans>, CarReadError> {
        loop {
            let window = &self.window[self.begin..self.end];
            let found = ffi::car_next_part(window, self.ended, self.section_limit, &mut self.place);
            match found.map_err(Error::of_car)? {
                Some(CarPart::Found(spans)) => return Ok(Some(spans)),
                Some(CarPart::More(more)) => {
                    let wanted = with(window.len(), more);
                    self.fill(wanted)?;
                }
                None => return Ok(None),
            }
        }
    }

    /// Reads until the window has `wanted` bytes from `begin` on, or the reader ends.
    fn fill(&mut self, wanted: usize) -> Result<(), CarReadError> {
        while !self.ended && self.end - self.begin < wanted {
            if self.begin >= CHUNK {
                self.window.copy_within(self.begin..self.end, 0);
                self.end -= self.begin;
                self.begin = 0;
            }
            let more = (wanted - (self.end - self.begin)).clamp(CHUNK, CHUNK.max(self.end));
            let room = self.end + more;
            if let Some(lacking) = room.checked_sub(self.window.len()) {
                self.window.try_reserve(lacking).map_err(|_| Error::OutOfMemory)?;
                self.window.resize(room, 0);
            }
            match self.reader.read(&mut self.window[self.end..room]) {
                Ok(0) => self.ended = true,
                Ok(count) => self.end += count.min(more),
                Err(error) if error.kind() == ErrorKind::Interrupted => {}
                Err(error) => return Err(error.into()),
            }
        }
        Ok(())
    }
}

/// Returns the sum, or `usize::MAX` if it is greater than that.
fn with(there: usize, more: u64) -> usize {
    there.saturating_add(usize::try_from(more).unwrap_or(usize::MAX))
}

impl<R: Read> FusedIterator for CarReader<R> {}

impl<R: Read> Iterator for CarReader<R> {
    type Item = Result<(Cid, Vec<u8>), CarReadError>;

    fn next(&mut self) -> Option<Self::Item> {
        let section = self.next_section().transpose()?;
        Some(section.map(|section| (section.cid, section.data.to_vec())))
    }
}
