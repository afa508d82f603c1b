package kombilad

import (
	"fmt"
	"io"
	"io/fs"
	"math"
)

// CarOptions are limits for untrusted CARs. The zero value has the defaults.
type CarOptions struct {
	// MaxHeader is the maximum number of bytes of a header. 0 is the default of 8 MiB. A negative
	// number doesn't allow any header.
	MaxHeader int
	// MaxSection is the maximum number of bytes of a section: a CID and a block. 0 is the default of
	// 32 MiB. A negative number doesn't allow any section.
	MaxSection int
	// Verify makes Next fail if a block doesn't match its CID, or if the hash function is not
	// SHA2-256, SHA2-512, BLAKE2b-256 or identity.
	Verify bool
}

// CarReader reads a CAR of version 1 or 2 from beginning to end. If the version is 2 it reads
// only the payload, and not an index.
//
// It keeps one section in memory, and up to 64 KiB that it has read in advance. It returns a block
// once the reader has returned the block's last byte. A CarReader is for one goroutine at a time.
type CarReader struct {
	source     io.Reader
	sourceErr  error  // the error that the source has returned, io.EOF at its end
	chunk      []byte // the memory for short sections
	bytes      []byte // the bytes from the next section on that the source has returned
	place      carPlace
	roots      []Cid
	maxSection int
	verify     bool
	err        error
}

// carChunk is the number of bytes of the chunk.
const carChunk = 64 << 10

// placeOfPayload is the byte of a CAR of version 2 at which its header has the offset of the
// payload.
const placeOfPayload = 27

// OpenCar reads the header of a CAR. The reader needs no buffer.
//
// It fails with an ErrCar status, or with an ErrBlock, an ErrLink or a limit's status if the header
// is not a block. The offset is the byte of the CAR at fault. An error of the reader is wrapped.
func OpenCar(source io.Reader) (*CarReader, error) {
	return CarOptions{}.OpenCar(source)
}

// OpenCar is like the function OpenCar, with these options.
func (o CarOptions) OpenCar(source io.Reader) (*CarReader, error) {
	r := &CarReader{source: source, chunk: make([]byte, carChunk), verify: o.Verify}
	r.maxSection = max(o.MaxSection, 0)
	if o.MaxSection == 0 {
		r.maxSection = 32 << 20
	}
	header := max(o.MaxHeader, 0)
	if o.MaxHeader == 0 {
		header = 8 << 20
	}
	if err := r.open(header); err != nil {
		return nil, err
	}
	return r, nil
}

// open reads the header, of at most limit bytes. It doesn't wait for bytes that come after it.
func (r *CarReader) open(limit int) error {
	// A header within the limit, and as much padding before it, have fewer bytes.
	most := math.MaxInt
	if limit < (most-carChunk)/2 {
		most = 2*limit + carChunk
	}
	for {
		roots, found := callCarOpen(r.bytes, r.sourceErr == io.EOF, limit)
		switch {
		case found.status == 0:
			r.roots, r.place = roots, found.place
			r.skip(int(found.place.at))
			return nil
		case found.status != statusMore:
			return failed(found.outcome)
		case len(r.bytes) >= most:
			return failed(outcome{status: ErrCarTooLong, offset: placeOfPayload})
		}
		if err := r.fill(found.more, most); err != nil {
			return err
		}
	}
}

// fill reads until there are this many more bytes, or most bytes in all, or the source has ended.
func (r *CarReader) fill(more uint64, most int) error {
	count := most
	if more < uint64(most-len(r.bytes)) {
		count = len(r.bytes) + int(more)
	}
	for len(r.bytes) < count && r.sourceErr == nil {
		// The memory grows with the bytes that arrive, since a length in the CAR may be wrong.
		step := count
		for step > carChunk && step/4 >= len(r.bytes) {
			step /= 2
		}
		if cap(r.bytes) < step {
			room := r.chunk
			if step > carChunk {
				room = make([]byte, step)
			}
			r.bytes = room[:copy(room, r.bytes)]
		}
		for empty := 0; len(r.bytes) < step && r.sourceErr == nil; {
			length, err := r.source.Read(r.bytes[len(r.bytes):cap(r.bytes)])
			r.bytes, r.sourceErr = r.bytes[:len(r.bytes)+length], err
			if length > 0 {
				empty = 0
			} else if empty++; empty == 100 && err == nil {
				r.sourceErr = io.ErrNoProgress
			}
		}
	}
	if len(r.bytes) < count && r.sourceErr != io.EOF {
		return fmt.Errorf("kombilad: cannot read the CAR: %w", r.sourceErr)
	}
	return nil
}

// take returns the first bytes, and moves past them. The caller owns the result: take copies bytes
// of the chunk, and longer memory has only bytes of this section.
func (r *CarReader) take(count int) []byte {
	taken := r.bytes[:count:count]
	if cap(r.bytes) <= carChunk {
		taken = append([]byte{}, taken...)
	}
	r.skip(count)
	return taken
}

// skip moves past the first bytes.
func (r *CarReader) skip(count int) {
	r.bytes = r.bytes[count:]
	if len(r.bytes) == 0 {
		r.bytes = nil // keeps no memory
	}
}

// Version returns the version of the CAR, 1 or 2.
func (r *CarReader) Version() int {
	return int(r.place.version)
}

// Roots returns the CIDs in the header.
func (r *CarReader) Roots() []Cid {
	return r.roots
}

// Offset returns the byte of the CAR at which the next section begins.
func (r *CarReader) Offset() int64 {
	return int64(r.place.at)
}

// Next returns the next block and its CID. The caller owns the block. Next doesn't compare it with
// the CID unless [CarOptions.Verify] is set.
//
// After the last section it returns [io.EOF]. It fails with an ErrCar or an ErrCid status and the
// offset of the byte at fault, and with an error of the reader, wrapped. After an error it returns
// the same error again.
func (r *CarReader) Next() (Cid, []byte, error) {
	if r.err != nil {
		return Cid{}, nil, r.err
	}
	cid, block, err := r.next()
	if err != nil {
		r.err, r.bytes, r.chunk = err, nil, nil
		return Cid{}, nil, err
	}
	return cid, block, nil
}

func (r *CarReader) next() (Cid, []byte, error) {
	found := callCarNext(r.bytes, r.sourceErr == io.EOF, r.maxSection, r.place)
	for found.status == statusMore {
		if err := r.fill(found.more, math.MaxInt); err != nil {
			return Cid{}, nil, err
		}
		found = callCarNext(r.bytes, r.sourceErr == io.EOF, r.maxSection, r.place)
	}
	switch found.status {
	case 0:
	case statusDone:
		return Cid{}, nil, io.EOF
	default:
		return Cid{}, nil, failed(found.outcome)
	}
	begin := int(found.block.offset)
	section := r.take(begin + int(found.block.len))
	cid := Cid{string(section[found.cid.offset:begin])}
	block := section[begin:]
	if r.verify {
		if status := callVerify(cid.bytes, block); status != 0 {
			offset := int64(r.place.at + found.block.offset)
			return Cid{}, nil, failed(outcome{status: status, offset: offset})
		}
	}
	r.place = found.place
	return cid, block, nil
}

// Blocks returns an iterator over the remaining blocks, for a range statement of Go 1.23:
//
//	for cid, block := range car.Blocks() {
//		use(cid, block)
//	}
//	if err := car.Err(); err != nil {
//		return err
//	}
func (r *CarReader) Blocks() func(yield func(Cid, []byte) bool) {
	return func(yield func(Cid, []byte) bool) {
		for {
			cid, block, err := r.Next()
			if err != nil || !yield(cid, block) {
				return
			}
		}
	}
}

// Err returns the error at which Next or Blocks has stopped, or nil after the last section.
func (r *CarReader) Err() error {
	if r.err == io.EOF {
		return nil
	}
	return r.err
}

// CarWriter writes a CAR of version 1. It keeps nothing in memory: each block is written at once, by
// at most two calls of the writer. Its method Write can be the [BlockPutter] of a [Packer].
//
// A CarWriter is for one goroutine at a time. It needs no Close.
type CarWriter struct {
	to   io.Writer
	head []byte // what a section has before its block
	err  error
}

// NewCarWriter writes the header of a CAR with these roots, and returns a writer of its blocks.
//
// If a root is undefined it fails with ErrCidEnd, and writes nothing. The path of the error is such
// as roots[1]. An error of the writer is wrapped. It also fails with ErrNoMemory.
func NewCarWriter(to io.Writer, roots []Cid) (*CarWriter, error) {
	header, err := carHeader(roots)
	if err != nil {
		return nil, err
	}
	w := newCarWriter(to)
	if err := w.write(header); err != nil {
		return nil, err
	}
	return &w, nil
}

func newCarWriter(to io.Writer) CarWriter {
	return CarWriter{to: to, head: make([]byte, carSection)}
}

// carHeader returns the header of a CAR with these roots.
func carHeader(roots []Cid) ([]byte, error) {
	header, made := callCarHeader(roots)
	if made.status == 0 {
		return header, nil
	}
	failure := failedWith(made.status)
	if made.status != ErrNoMemory {
		failure.Path = "roots" + indexPart(int(made.offset))
	}
	return nil, failure
}

// Write writes a block. The blocks may come in any order. Write doesn't compare them with their
// CIDs.
//
// If the CID is undefined it fails with ErrCidEnd, and writes nothing. An error of the writer is
// wrapped. After it a section may be incomplete, and Write returns the same error again.
func (w *CarWriter) Write(cid Cid, block []byte) error {
	_, err := w.section(cid, block)
	return err
}

// section writes a section, and returns the number of its bytes before the block.
func (w *CarWriter) section(cid Cid, block []byte) (int, error) {
	made := callCarSection(cid.bytes, len(block), w.head)
	if made.status != 0 {
		return 0, failedWith(made.status)
	}
	return made.needed, w.write(w.head[:made.needed], block)
}

// write writes parts of the CAR, unless there was an error before.
func (w *CarWriter) write(parts ...[]byte) error {
	for _, part := range parts {
		if w.err != nil || len(part) == 0 {
			continue
		}
		count, err := w.to.Write(part)
		if err == nil && count < len(part) {
			err = io.ErrShortWrite
		}
		if err != nil {
			w.fail(err)
		}
	}
	return w.err
}

// fail keeps an error of the writer, and returns it.
func (w *CarWriter) fail(err error) error {
	w.err = fmt.Errorf("kombilad: cannot write the CAR: %w", err)
	return w.err
}

// IndexedCarWriter writes a CAR of version 2: that of a [CarWriter], and an index of its blocks. Its
// method Write can be the [BlockPutter] of a [Packer]. It keeps 96 bytes for each block.
//
// An IndexedCarWriter is for one goroutine at a time. The file is not a CAR before Close has returned
// nil.
type IndexedCarWriter struct {
	car     CarWriter
	to      io.WriteSeeker
	start   int64 // where the CAR begins in the file
	payload uint64
	rows    []carRow
	closed  bool
}

// NewIndexedCarWriter writes the header of a CAR with these roots from the position of the file on,
// and returns a writer of its blocks.
//
// If a root is undefined it fails with ErrCidEnd, and writes nothing. The path of the error is such
// as roots[1]. An error of the file is wrapped. It also fails with ErrNoMemory.
func NewIndexedCarWriter(to io.WriteSeeker, roots []Cid) (*IndexedCarWriter, error) {
	header, err := carHeader(roots)
	if err != nil {
		return nil, err
	}
	w := &IndexedCarWriter{car: newCarWriter(to), to: to, payload: uint64(len(header))}
	if w.start, err = to.Seek(0, io.SeekCurrent); err != nil {
		return nil, w.car.fail(err)
	}
	if err := w.car.write(make([]byte, carFront), header); err != nil {
		return nil, err
	}
	return w, nil
}

// Write writes a block, as the method of [CarWriter] does.
func (w *IndexedCarWriter) Write(cid Cid, block []byte) error {
	if w.closed {
		return fmt.Errorf("kombilad: cannot write to a CAR after its end: %w", fs.ErrClosed)
	}
	head, err := w.car.section(cid, block)
	if err == nil {
		w.rows = append(w.rows, rowOf(cid, w.payload))
		w.payload += uint64(head) + uint64(len(block))
	}
	return err
}

// Close writes the index and the first bytes, and leaves the file at the end of the CAR. It doesn't
// close the file. If there was an error before, it returns that and writes nothing. A second Close
// does nothing.
func (w *IndexedCarWriter) Close() error {
	if w.car.err != nil || w.closed {
		return w.car.err
	}
	around, made := callCarIndex(w.rows, w.payload)
	if made.status != 0 {
		return failedWith(made.status)
	}
	end := w.start + carFront + int64(w.payload) + int64(len(around)-carFront)
	if err := w.car.write(around[carFront:]); err != nil {
		return err
	}
	if err := w.seek(w.start); err != nil {
		return err
	}
	if err := w.car.write(around[:carFront]); err != nil {
		return err
	}
	if err := w.seek(end); err != nil {
		return err
	}
	w.closed, w.rows = true, nil
	return nil
}

func (w *IndexedCarWriter) seek(at int64) error {
	if _, err := w.to.Seek(at, io.SeekStart); err != nil {
		return w.car.fail(err)
	}
	return nil
}
