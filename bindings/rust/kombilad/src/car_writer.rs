//! Writes CAR files, one section after another.

use std::io::{self, ErrorKind, Seek, SeekFrom, Write};

use kombilad_sys as sys;

use crate::cid::Cid;
use crate::error::Error;
use crate::ffi::{self, CarRow, Stopped};

/// Writes a CAR of version 1.
///
/// ```
/// use kombilad::{CarWriter, Cid, DAG_CBOR};
///
/// let cid = Cid::of_block(DAG_CBOR, b"\xa0");
/// let mut car = CarWriter::new(Vec::new(), &[cid])?;
/// car.write(&cid, b"\xa0")?;
/// assert_eq!(car.into_inner().len(), 59 + 38);
/// # Ok::<(), std::io::Error>(())
/// ```
///
/// Each call writes to the writer at once. Pass a `BufWriter` for many small blocks.
#[derive(Debug)]
pub struct CarWriter<W> {
    writer: W,
}

impl<W: Write> CarWriter<W> {
    /// Writes the header with these roots.
    ///
    /// # Errors
    ///
    /// Those of the writer, and `OutOfMemory` if an allocation fails. A part of the header may have
    /// been written then.
    pub fn new(mut writer: W, roots: &[Cid]) -> io::Result<Self> {
        writer.write_all(&ffi::car_header(roots).map_err(refused)?)?;
        Ok(CarWriter { writer })
    }

    /// Writes a section. It doesn't check that the block has the digest of the CID, as
    /// [`Cid::verify`] does.
    ///
    /// # Errors
    ///
    /// Those of the writer. A part of the section may have been written then.
    pub fn write(&mut self, cid: &Cid, block: &[u8]) -> io::Result<()> {
        self.write_section(cid, block)?;
        Ok(())
    }

    /// Writes a section, and returns its length.
    fn write_section(&mut self, cid: &Cid, block: &[u8]) -> io::Result<u64> {
        let mut bytes = [0; sys::KOMBILAD_CAR_SECTION];
        let head = ffi::car_section(cid, block, &mut bytes).map_err(refused)?;
        self.writer.write_all(head)?;
        self.writer.write_all(block)?;
        Ok(head.len() as u64 + block.len() as u64)
    }

    /// Returns the writer, without flushing it.
    pub fn into_inner(self) -> W {
        self.writer
    }
}

/// Writes a CAR of version 2: that of a [`CarWriter`], and an index of its blocks.
///
/// ```
/// use std::io::Cursor;
///
/// use kombilad::{CarReader, Cid, IndexedCarWriter, DAG_CBOR};
///
/// let cid = Cid::of_block(DAG_CBOR, b"\xa0");
/// let mut car = IndexedCarWriter::new(Cursor::new(Vec::new()), &[cid])?;
/// car.write(&cid, b"\xa0")?;
/// let bytes = car.finish()?.into_inner();
/// assert_eq!(CarReader::new(bytes.as_slice())?.version(), 2);
/// # Ok::<(), Box<dyn std::error::Error>>(())
/// ```
///
/// It writes from the writer's position on. The first bytes are written by
/// [`finish`](IndexedCarWriter::finish), so the file is not a CAR before. It keeps 96 bytes for
/// each block. After an error, start again with a new file.
#[derive(Debug)]
pub struct IndexedCarWriter<W> {
    car: CarWriter<W>,
    /// The writer's position at first.
    start: u64,
    payload_len: u64,
    rows: Vec<CarRow>,
}

impl<W: Write + Seek> IndexedCarWriter<W> {
    /// Writes the header with these roots.
    ///
    /// # Errors
    ///
    /// Those of the writer, and `OutOfMemory` if an allocation fails. A part of the header may have
    /// been written then.
    pub fn new(mut writer: W, roots: &[Cid]) -> io::Result<Self> {
        let start = writer.stream_position()?;
        writer.write_all(&[0; sys::KOMBILAD_CAR_FRONT])?;
        let header = ffi::car_header(roots).map_err(refused)?;
        writer.write_all(&header)?;
        let payload_len = header.len() as u64;
        Ok(IndexedCarWriter { car: CarWriter { writer }, start, payload_len, rows: Vec::new() })
    }

    /// Writes a section. It doesn't check that the block has the digest of the CID, as
    /// [`Cid::verify`] does.
    ///
    /// # Errors
    ///
    /// Those of the writer, and `OutOfMemory` if an allocation fails. A part of the section may have
    /// been written then.
    pub fn write(&mut self, cid: &Cid, block: &[u8]) -> io::Result<()> {
        self.rows.try_reserve(1).map_err(|_| ErrorKind::OutOfMemory)?;
        let len = self.car.write_section(cid, block)?;
        self.rows.push(CarRow { cid: cid.record(), offset: self.payload_len });
        self.payload_len += len;
        Ok(())
    }

    /// Writes the index and the first bytes. Returns the writer, at the end of the CAR, without
    /// flushing it.
    ///
    /// # Errors
    ///
    /// Those of the writer, and `OutOfMemory` if an allocation fails. The file is not a CAR then.
    pub fn finish(self) -> io::Result<W> {
        let around = ffi::car_index(&self.rows, self.payload_len).map_err(refused)?;
        let (front, index) = around.split_at(sys::KOMBILAD_CAR_FRONT);
        let mut writer = self.car.writer;
        writer.write_all(index)?;
        let end = writer.stream_position()?;
        writer.seek(SeekFrom::Start(self.start))?;
        writer.write_all(front)?;
        writer.seek(SeekFrom::Start(end))?;
        Ok(writer)
    }
}

/// Returns the error of a call.
fn refused(stopped: Stopped) -> io::Error {
    match Error::of_car(stopped) {
        Error::OutOfMemory => ErrorKind::OutOfMemory.into(),
        error => io::Error::new(ErrorKind::InvalidInput, error),
    }
}
