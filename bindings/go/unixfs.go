package kombilad

import (
	"io"
	"io/fs"
	"time"
)

// BlockGetter returns the block of a CID, from anywhere. Nobody has to trust it: each block is
// verified before it is read. Nothing may change the block after it is returned.
//
// If it doesn't have the block it returns nil, as a map[Cid][]byte does, and the call fails with
// ErrMissingBlock. If it returns an error, the call fails with ErrBlockGetter, and the [Error]
// wraps the error. Don't return one that is [fs.ErrNotExist], as an [FS] returns that for a missing
// entry.
//
// It may be asked for the same block several times. It isn't asked for a block that is in the CID
// itself, by the hash function [Identity]. It must not use the reader that waits for it: any method
// except Close fails with ErrInUse. A panic of it passes through, and the reader is as before.
type BlockGetter func(cid Cid) ([]byte, error)

// block returns the block of a CID, which isn't verified.
func (get BlockGetter) block(cid Cid) ([]byte, error) {
	parts, status := callCidParts(cid.bytes)
	if status != 0 {
		return nil, failed(outcome{status: status, offset: -1})
	}
	if parts.hash == Identity {
		return cid.Digest(), nil
	}
	block, err := get(cid)
	switch {
	case err != nil:
		return nil, &Error{Status: ErrBlockGetter, Offset: -1, Cid: cid, Err: err}
	case block == nil && callVerify(cid.bytes, nil) != 0: // nil may be the empty block
		return nil, &Error{Status: ErrMissingBlock, Offset: -1, Cid: cid}
	}
	return block, nil
}

// lookUp returns the CID of the entry of a folder that has this name. It fails with fs.ErrNotExist
// if there is none.
func (get BlockGetter) lookUp(folder Cid, name string) (Cid, error) {
	var bytes []byte
	blocks := make([]span, 0, 8)
	for last := folder; ; {
		cid, made := callFolderLookup(folder.bytes, name, bytes, blocks)
		switch made.status {
		case 0:
			return Cid{cid}, nil
		case statusFolderMissing:
			return Cid{}, fs.ErrNotExist
		case statusFolderMore:
		default:
			return Cid{}, failedIn(last, made)
		}
		last = Cid{cid}
		block, err := get.block(last)
		if err != nil {
			return Cid{}, err
		}
		blocks = append(blocks, span{uint64(len(bytes)), uint64(len(block))})
		if bytes == nil {
			bytes = block[:len(block):len(block)] // a second block is appended to a copy
		} else {
			bytes = append(bytes, block...)
		}
	}
}

// NodeKind is the kind of a [Node].
type NodeKind uint32

// Node has the fields of a file, a folder or a symbolic link in its block.
type Node struct {
	Kind NodeKind
	// Size is the number of bytes of a file, by its block, if it is less than 2^64. Only a
	// [FileReader] compares it with the file.
	Size    uint64
	HasSize bool
	// Mode has the permissions as chmod has them, in its low twelve bits, if the node has them.
	Mode    uint32
	HasMode bool
	// ModTime is when the content was last changed, in UTC, if the node has it.
	ModTime    time.Time
	HasModTime bool
	// Target is the target of a symbolic link. It can be any bytes: see [SymlinkStaysInside].
	Target string
}

// ReadNode verifies the block of a CID, and returns the fields of the file, the folder or the
// symbolic link. A raw block is a file of its bytes.
//
// It fails with ErrWrongDigest, ErrUnknownHash, ErrFileCodec or ErrFileNoData, with an ErrPb, an
// ErrLink or an ErrUnixFS status and the offset, with ErrNoMemory, and with ErrCidEnd if the CID is
// undefined. The error has the CID.
func ReadNode(cid Cid, block []byte) (Node, error) {
	node, made := callUnixFSNode(cid.bytes, block)
	if made.status != 0 {
		return Node{}, failedIn(cid, made)
	}
	return node, nil
}

// SymlinkStaysInside reports whether a symbolic link with this target leads to nothing outside of a
// folder. The link is in a folder depth levels below that one, and none of the folders between them
// is a link. The target must be UTF-8 and relative, and have ".." only before all names, at most
// depth times. A negative depth is 0.
func SymlinkStaysInside(target string, depth int) bool {
	return callSymlinkStaysInside(target, max(depth, 0))
}

// blockWalk is a walk over the blocks of a file or a folder, with the source of the blocks.
type blockWalk struct {
	get   BlockGetter
	cid   Cid
	block []byte // the block of the CID
	walk  *walk  // nil after close
	inGet bool
}

// usable returns an error if the walk is closed, or waits for its BlockGetter.
func (b *blockWalk) usable() error {
	switch {
	case b.walk == nil:
		return fs.ErrClosed
	case b.inGet:
		return &Error{Status: ErrInUse, Offset: -1}
	}
	return nil
}

// step gets the block that the walk wants next, and passes it to take. It returns io.EOF if no
// block is left. After an error the walk still wants this block.
func (b *blockWalk) step(take func(block []byte) outcome) error {
	wanted, made := b.walk.wanted()
	if made.status == statusWalkDone {
		return io.EOF
	}
	cid, block := Cid{wanted}, b.block
	if cid != b.cid {
		var err error
		if block, err = b.getBlock(cid); err != nil {
			return err
		}
		if b.walk == nil { // the BlockGetter has called Close
			return fs.ErrClosed
		}
	}
	if made := take(block); made.status != 0 {
		return failedIn(cid, made)
	}
	return nil
}

func (b *blockWalk) getBlock(cid Cid) ([]byte, error) {
	b.inGet = true
	defer func() { b.inGet = false }()
	return b.get.block(cid)
}

func (b *blockWalk) close() error {
	if b.walk == nil {
		return fs.ErrClosed
	}
	b.walk.free()
	b.walk, b.block = nil, nil
	return nil
}
