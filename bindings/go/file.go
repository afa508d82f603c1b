package kombilad

import (
	"io"
	"io/fs"
	"math"
)

// FileOptions are limits for untrusted files. The zero value has the defaults, which are enough for
// a file of 1 TiB in the usual layouts. The functions of the package use it.
type FileOptions struct {
	// MaxBytes is the maximum number of bytes. 0 is the default: the number isn't limited. A
	// negative number allows only empty files.
	MaxBytes int64
	// MaxBlocks is the maximum number of blocks. A block that is linked twice counts twice. 0 is
	// the default of 2^24. A negative number doesn't allow any block.
	MaxBlocks int
	// MaxWaiting is the maximum number of blocks that wait to be read while another is read. Each
	// takes about 100 bytes of memory. 0 is the default of 2^18. A negative number allows only
	// files of one block.
	MaxWaiting int
	// MaxLevels is the maximum number of levels of blocks below that of the CID. 0 is the default
	// of 64. A negative number allows only files of one block.
	MaxLevels int
}

func (o FileOptions) limits() fileLimits {
	within := usualLimits
	if o.MaxBytes != 0 {
		within.bytes = 0
	}
	if o.MaxBytes > 0 {
		within.bytes = uint64(o.MaxBytes)
	}
	if o.MaxBlocks != 0 {
		within.blocks = uint64(max(o.MaxBlocks, 0))
	}
	if o.MaxWaiting != 0 {
		within.waiting = cSize(max(o.MaxWaiting, 0))
	}
	if o.MaxLevels != 0 {
		within.levels = cSize(max(o.MaxLevels, 0))
	}
	return within
}

// FileReader reads a file of UnixFS from any byte on, block by block. Each block is verified, and
// each size in it is compared with the number of bytes, before any of its bytes are returned.
//
// It keeps the block of the CID in memory, and the bytes of one more block. A FileReader is for one
// goroutine at a time. Only ReadAt may be called at the same time as itself, Read and Seek, if the
// [BlockGetter] allows that.
type FileReader struct {
	blockWalk
	within fileLimits
	size   int64
	at     int64  // the byte of the file that is read next
	begin  int64  // the byte of the file with which bytes begins, or -1 if no walk has begun
	bytes  []byte // the bytes of a block. The walk continues after them
	room   []byte // the memory for bytes
}

// NewFileReader gets the block of a CID, and returns a reader of the file. The caller should close
// it. Otherwise the garbage collector frees its memory in C.
//
// It fails with ErrMissingBlock, ErrBlockGetter, ErrWrongDigest or ErrUnknownHash, with an ErrFile,
// an ErrPb, an ErrLink or an ErrUnixFS status, and with ErrNoMemory. A file of 2^63 bytes or more
// is ErrFileTooLarge. The error has the CID of the block. If the CID is undefined, it fails with
// ErrCidEnd.
func NewFileReader(get BlockGetter, cid Cid) (*FileReader, error) {
	return FileOptions{}.NewFileReader(get, cid)
}

// NewFileReader is like the function NewFileReader, within these limits.
func (o FileOptions) NewFileReader(get BlockGetter, cid Cid) (*FileReader, error) {
	block, err := get.block(cid)
	if err != nil {
		return nil, err
	}
	node, err := ReadNode(cid, block)
	if err != nil {
		return nil, err
	}
	size, err := fileSize(cid, node)
	if err != nil {
		return nil, err
	}
	return newFileReader(blockWalk{get: get, cid: cid, block: block}, o.limits(), size)
}

func newFileReader(of blockWalk, within fileLimits, size int64) (*FileReader, error) {
	r := &FileReader{blockWalk: of, within: within, size: size, begin: -1}
	r.walk = newWalk()
	if _, err := r.fill(nil); err != nil {
		_ = r.Close()
		return nil, err
	}
	return r, nil
}

// fileSize returns the size of a file, and 0 if the node isn't a file.
func fileSize(cid Cid, node Node) (int64, error) {
	switch {
	case node.Kind != NodeFile && node.Kind != NodeRaw:
		return 0, nil
	case !node.HasSize || node.Size > math.MaxInt64:
		return 0, failedIn(cid, outcome{status: ErrFileTooLarge})
	}
	return int64(node.Size), nil
}

// Size returns the number of bytes of the file.
func (r *FileReader) Size() int64 {
	return r.size
}

// Read reads the next bytes of the file, of at most one block. It returns [io.EOF] after the last.
//
// It fails with the errors of NewFileReader, with [fs.ErrClosed] after Close, and with ErrInUse if
// the BlockGetter calls it. After an error the reader is as before, and the next Read asks for the
// block again.
func (r *FileReader) Read(p []byte) (int, error) {
	if err := r.usable(); err != nil || len(p) == 0 {
		return 0, err
	}
	for {
		if past := r.at - r.begin; past >= 0 && past < int64(len(r.bytes)) {
			count := copy(p, r.bytes[past:])
			r.at += int64(count)
			return count, nil
		}
		if count, err := r.fill(p); count > 0 || err != nil {
			return count, err
		}
	}
}

// fill takes the next block, at the byte that is read next. It reads the bytes in it into p if p
// has room for the block, and returns their number. Otherwise it keeps them.
func (r *FileReader) fill(p []byte) (count int, err error) {
	if r.begin < 0 || r.at != r.begin+int64(len(r.bytes)) {
		if made := r.walk.newFile(r.cid.bytes, r.at, r.within); made.status != 0 {
			return 0, failedIn(r.cid, made)
		}
		r.begin, r.bytes = r.at, nil
	}
	err = r.step(func(block []byte) outcome {
		to := p
		if len(p) < len(block) {
			if to = r.room; len(to) < len(block) {
				to = make([]byte, len(block))
			}
		}
		made := r.walk.takeFile(block, to)
		if made.status != 0 {
			return made
		}
		r.begin, r.bytes = r.at, nil
		if len(p) < len(block) {
			r.room, r.bytes = to, to[:made.needed]
		} else {
			count = made.needed
			r.at += int64(count)
			r.begin = r.at
		}
		return made
	})
	return count, err
}

// Seek sets the byte of the file that is read next, and returns it. It can be after the end of the
// file. Seek gets no block: the next Read gets those that lead to the byte, unless it is in the
// same block as the last.
//
// It fails with [fs.ErrInvalid] if the byte is before the file or whence is unknown, and then
// changes nothing, with [fs.ErrClosed] after Close, and with ErrInUse if the BlockGetter calls it.
func (r *FileReader) Seek(offset int64, whence int) (int64, error) {
	if err := r.usable(); err != nil {
		return 0, err
	}
	switch whence {
	case io.SeekStart:
	case io.SeekCurrent:
		offset += r.at
	case io.SeekEnd:
		offset += r.size
	default:
		return 0, fs.ErrInvalid
	}
	if offset < 0 {
		return 0, fs.ErrInvalid
	}
	r.at = offset
	return offset, nil
}

// ReadAt reads bytes of the file from the byte offset on. Each call gets the blocks that lead
// there, so use Seek and Read for many bytes in a row.
//
// It fails with [io.EOF] if the file ends before p is full, with [fs.ErrInvalid] if the offset is
// negative, and with the errors of Read. It returns the bytes before the error.
func (r *FileReader) ReadAt(p []byte, offset int64) (int, error) {
	if r.walk == nil {
		return 0, fs.ErrClosed
	}
	if offset < 0 {
		return 0, fs.ErrInvalid
	}
	of := blockWalk{get: r.get, cid: r.cid, block: r.block, walk: newWalk()}
	defer of.walk.free()
	count, err := io.ReadFull(&FileReader{blockWalk: of, within: r.within, at: offset, begin: -1}, p)
	if err == io.ErrUnexpectedEOF {
		err = io.EOF
	}
	return count, err
}

// Close frees the memory of the reader. It fails with [fs.ErrClosed] if it was called before.
func (r *FileReader) Close() error {
	r.bytes, r.room = nil, nil
	return r.close()
}
