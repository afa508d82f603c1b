package kombilad

import "io"

// FolderEntry is an entry of a folder of UnixFS.
type FolderEntry struct {
	// Name is UTF-8. It isn't "", "." or "..", and has no "/" and no zero byte.
	Name string
	Cid  Cid
	// Tsize is the size that the link states of its block and all blocks below it, if it states
	// one. It is not checked.
	Tsize    uint64
	HasTsize bool
}

// FolderReader lists the entries of a folder of UnixFS, block by block. Each block is verified.
//
// A plain folder is one block, and its entries are in the order of their names. A sharded folder is
// listed shard by shard: first the entries that a shard itself has, and then those of the shards
// below it. The reader keeps the entries of one block in memory, and takes 21 times the length of a
// block while it reads it. It is for one goroutine at a time.
type FolderReader struct {
	blockWalk
	entries []FolderEntry // those of the last block that are left
	err     error
}

// NewFolderReader gets the block of a CID, and returns a reader of the folder. The caller should
// close it. Otherwise the garbage collector frees its memory in C.
//
// It fails with ErrMissingBlock, ErrBlockGetter, ErrWrongDigest or ErrUnknownHash, with
// ErrFileNoData, with an ErrFolder, an ErrPb, an ErrLink or an ErrUnixFS status, and with
// ErrNoMemory. The error has the CID of the block. If the CID is undefined, it fails with
// ErrCidEnd.
func NewFolderReader(get BlockGetter, cid Cid) (*FolderReader, error) {
	block, err := get.block(cid)
	if err != nil {
		return nil, err
	}
	return newFolderReader(blockWalk{get: get, cid: cid, block: block})
}

func newFolderReader(of blockWalk) (*FolderReader, error) {
	r := &FolderReader{blockWalk: of}
	r.walk = newWalk()
	err := error(nil)
	if made := r.walk.newFolder(r.cid.bytes); made.status != 0 {
		err = failedIn(r.cid, made)
	} else {
		err = r.fill()
	}
	if err != nil {
		_ = r.Close()
		return nil, err
	}
	r.block = nil // it isn't wanted again
	return r, nil
}

// fill takes the next block.
func (r *FolderReader) fill() error {
	return r.step(func(block []byte) outcome {
		entries, made := r.walk.takeFolder(block)
		if made.status == 0 {
			r.entries = entries
		}
		return made
	})
}

// Next returns the next entry. After the last one it returns [io.EOF].
//
// It fails with the errors of NewFolderReader, with [fs.ErrClosed] after Close, and with ErrInUse
// if the BlockGetter calls it. After an error the reader is as before, and the next call asks for
// the block again.
func (r *FolderReader) Next() (FolderEntry, error) {
	entry, err := r.peek()
	if r.err = err; err == nil {
		r.skip()
	}
	return entry, err
}

// peek returns the next entry, and skip moves past it.
func (r *FolderReader) peek() (FolderEntry, error) {
	if err := r.usable(); err != nil {
		return FolderEntry{}, err
	}
	for len(r.entries) == 0 {
		if err := r.fill(); err != nil {
			return FolderEntry{}, err
		}
	}
	return r.entries[0], nil
}

func (r *FolderReader) skip() {
	r.entries = r.entries[1:]
}

// Entries returns an iterator over the remaining entries, for a range statement of Go 1.23:
//
//	for entry := range folder.Entries() {
//		use(entry)
//	}
//	if err := folder.Err(); err != nil {
//		return err
//	}
func (r *FolderReader) Entries() func(yield func(FolderEntry) bool) {
	return func(yield func(FolderEntry) bool) {
		for {
			entry, err := r.Next()
			if err != nil || !yield(entry) {
				return
			}
		}
	}
}

// Err returns the error at which Next or Entries has stopped, or nil after the last entry.
func (r *FolderReader) Err() error {
	if r.err == io.EOF {
		return nil
	}
	return r.err
}

// Close frees the memory of the reader. It fails with [fs.ErrClosed] if it was called before.
func (r *FolderReader) Close() error {
	r.entries = nil
	return r.close()
}
