package kombilad

import (
	"bytes"
	"io"
	"io/fs"
	"sort"
	"strings"
	"time"
)

// BlockPutter stores a block that was packed, and its CID. It owns the block. A block that occurs
// twice may be put twice.
//
// If it returns an error, the call that packs stops and returns this error. A panic of it passes
// through. It may use the [Packer].
type BlockPutter func(cid Cid, block []byte) error

// PackOptions are the layout of files and folders. The zero value has the defaults of `ipfs add`.
type PackOptions struct {
	// Version is the version of the CIDs, 0 or 1.
	Version int
	// RawLeaves makes each chunk of a file a raw block, whose CID has version 1. A file of one chunk
	// that has permissions or a time is one node instead.
	RawLeaves bool
	// ChunkSize is the number of bytes of a chunk of a file, at most 67,108,864. The last chunk may
	// be shorter. 0 is the default of 262,144.
	ChunkSize int
	// MaxLinks is the maximum number of links in a block of a file, at least 2. 0 is the default of
	// 174.
	MaxLinks int
	// ShardedAbove is the maximum number of bytes that the names and the CIDs in a plain folder
	// have. A folder with more is sharded. 0 is the default of 262,144. A negative number makes
	// every folder sharded that isn't empty.
	ShardedAbove int64
	// Preserve makes AddFS keep the permissions and the times.
	Preserve bool
}

// maxChunk is the maximum of ChunkSize.
const maxChunk = 64 << 20

// Packer packs files, folders and symbolic links of UnixFS into blocks, and puts each block as soon
// as it is complete. The blocks and the CIDs are those of `ipfs add`.
//
// While it packs a file it keeps a few chunks in memory, and the links of the blocks that aren't
// complete. Between calls it keeps nothing, so it can be used after an error. Goroutines may use a
// Packer at the same time if its [BlockPutter] allows that.
type Packer struct {
	put      BlockPutter
	layout   layout
	preserve bool
}

// NewPacker returns a Packer with the default options.
func NewPacker(put BlockPutter) *Packer {
	return &Packer{put: put, layout: usualLayout}
}

// NewPacker returns a Packer with these options.
//
// It fails with ErrCidUnknownVersion if the version is neither 0 nor 1, with ErrRange if the
// size of a chunk is out of range, and with ErrPackWidth if a block can't have two links.
func (o PackOptions) NewPacker(put BlockPutter) (*Packer, error) {
	by := usualLayout
	by.version, by.rawLeaves = o.Version, o.RawLeaves
	if o.ChunkSize != 0 {
		by.chunk = o.ChunkSize
	}
	if o.MaxLinks != 0 {
		by.links = o.MaxLinks
	}
	if o.ShardedAbove != 0 {
		by.shardedAbove = 0
	}
	if o.ShardedAbove > 0 {
		by.shardedAbove = uint64(o.ShardedAbove)
	}
	switch {
	case by.version != 0 && by.version != 1:
		return nil, failedWith(ErrCidUnknownVersion)
	case by.chunk < 1 || by.chunk > maxChunk:
		detail := "the size of a chunk must be from 1 to 67,108,864 bytes"
		return nil, &Error{Status: ErrRange, Offset: -1, detail: detail}
	case by.links < 2:
		return nil, failedWith(ErrPackWidth)
	}
	return &Packer{put, by, o.Preserve}, nil
}

// Attributes are the permissions and the time of a file, a folder or a symbolic link, as in a
// [Node]. Nil has none.
type Attributes struct {
	// Mode has the permissions as chmod has them, in its low twelve bits.
	Mode    uint32
	HasMode bool
	// ModTime is when the content was last changed.
	ModTime    time.Time
	HasModTime bool
}

// Packed is a file, a folder or a symbolic link that was packed.
type Packed struct {
	Cid Cid
	// Size is the number of bytes of a file, and otherwise 0.
	Size uint64
	// Total is the number of bytes of all its blocks. A block that occurs twice counts twice.
	Total uint64
}

// PackedEntry is an entry of a folder that is to be packed.
type PackedEntry struct {
	Name string
	Packed
}

// File packs the bytes of a reader, up to its end. It puts each chunk, and each block after those to
// which it has links, so the root comes last. An empty file is one empty chunk. The reader needs no
// buffer. Without permissions and a time, the attributes can be nil.
//
// It fails with the errors of the reader and of the BlockPutter, unchanged, with ErrPackTooLarge if
// the blocks have 2^64 bytes or more, and with ErrNoMemory.
func (p *Packer) File(source io.Reader, attributes *Attributes) (Packed, error) {
	var of packing
	defer of.free()
	if made := of.newFile(p.layout); made.status != 0 {
		return Packed{}, failedWith(made.status)
	}
	var chunk bytes.Buffer
	for {
		// If there is one byte more than a chunk has, the chunk isn't the last.
		missing := int64(p.layout.chunk + 1 - chunk.Len())
		if _, err := chunk.ReadFrom(io.LimitReader(source, missing)); err != nil {
			return Packed{}, err
		}
		if chunk.Len() <= p.layout.chunk {
			_, root, err := p.putAll(&of, of.addLastChunk(chunk.Bytes(), attributes))
			return root, err
		}
		if _, _, err := p.putAll(&of, of.addChunk(chunk.Next(p.layout.chunk))); err != nil {
			return Packed{}, err
		}
	}
}

// Symlink packs a symbolic link. The target has to be UTF-8. Without permissions and a time, the
// attributes can be nil.
//
// It fails with ErrTextUTF8, with the errors of the BlockPutter, unchanged, and with ErrNoMemory.
func (p *Packer) Symlink(target string, attributes *Attributes) (Packed, error) {
	return p.symlink(".", target, attributes)
}

func (p *Packer) symlink(name, target string, attributes *Attributes) (Packed, error) {
	var of packing
	defer of.free()
	made := of.newSymlink(p.layout, target, attributes)
	if made.status != 0 {
		return Packed{}, failedWith(made.status).below(name)
	}
	root, _, err := p.putAll(&of, made)
	return root, err
}

// Folder packs a folder of these entries, in any order. It puts the root, and then the other shards
// of a sharded folder, each before those below it. Without permissions and a time, the attributes
// can be nil.
//
// It fails with ErrPackInvalidName if a name is "", "." or "..", or has a "/" or a zero byte, with
// ErrTextUTF8 if it isn't UTF-8, with ErrPackNameOrder if two entries have one name, and with
// ErrCidEnd if a CID is undefined. The path of the error is the name. It also fails with
// ErrPackSameHash if a sharded folder has two names with one hash, with ErrPackTooLarge, with the
// errors of the BlockPutter, unchanged, and with ErrNoMemory.
func (p *Packer) Folder(entries []PackedEntry, attributes *Attributes) (Packed, error) {
	return p.folder(".", entries, attributes)
}

func (p *Packer) folder(name string, entries []PackedEntry, attributes *Attributes) (Packed, error) {
	entries = append([]PackedEntry{}, entries...)
	sort.Slice(entries, func(i, j int) bool { return entries[i].Name < entries[j].Name })
	var of packing
	defer of.free()
	made := of.newFolder(p.layout, entries, attributes)
	if made.status != 0 {
		failure := failedWith(made.status)
		switch made.status {
		case ErrPackNameOrder:
			failure.detail = "two entries of the folder have this name"
			fallthrough
		case ErrPackInvalidName, ErrTextUTF8, ErrCidEnd:
			failure = failure.within(keyPart(entries[made.offset].Name))
		}
		return Packed{}, failure.below(name)
	}
	root, _, err := p.putAll(&of, made)
	return root, err
}

// putAll puts the blocks that wait after a call, and returns the first and the last of them.
func (p *Packer) putAll(of *packing, made outcome) (first, last Packed, err error) {
	for made.status == 0 {
		var row Packed
		var block []byte
		switch row, block, made = of.take(); made.status {
		case 0:
			if err := p.put(row.Cid, block); err != nil {
				return Packed{}, Packed{}, err
			}
			if last = row; !first.Cid.Defined() {
				first = row
			}
		case statusWalkDone:
			return first, last, nil
		}
	}
	return Packed{}, Packed{}, failedWith(made.status)
}

// AddFS packs all files and folders of a file system, such as [os.DirFS] or an [FS], and returns the
// root. It packs symbolic links if the file system has the method ReadLink of an [FS]. Permissions
// and times are left out unless [PackOptions.Preserve] is set.
//
// It fails with the errors of the file system and of the BlockPutter, unchanged, and with those of
// Folder, whose path leads to the name. A symbolic link without ReadLink, and anything else, such as
// a device, is an [fs.PathError] with ErrFileNotFile.
func (p *Packer) AddFS(fsys fs.FS) (Packed, error) {
	info, err := fs.Stat(fsys, ".")
	if err != nil {
		return Packed{}, err
	}
	return p.add(fsys, ".", info)
}

// add packs the file, the folder or the link at a path.
func (p *Packer) add(fsys fs.FS, name string, info fs.FileInfo) (Packed, error) {
	var attributes *Attributes
	if p.preserve {
		modTime := info.ModTime()
		attributes = &Attributes{uint32(info.Mode().Perm()), true, modTime, !modTime.IsZero()}
	}
	links, hasLinks := fsys.(interface {
		ReadLink(name string) (string, error)
	})
	switch kind := info.Mode().Type(); {
	case kind == 0:
		file, err := fsys.Open(name)
		if err != nil {
			return Packed{}, err
		}
		defer file.Close()
		return p.File(file, attributes)
	case kind == fs.ModeSymlink && hasLinks:
		target, err := links.ReadLink(name)
		if err != nil {
			return Packed{}, err
		}
		return p.symlink(name, target, attributes)
	case kind == fs.ModeDir:
		list, err := fs.ReadDir(fsys, name)
		if err != nil {
			return Packed{}, err
		}
		entries := make([]PackedEntry, len(list))
		for at, it := range list {
			info, err := it.Info()
			if err == nil {
				entries[at].Name = it.Name()
				below := strings.TrimPrefix(name+"/"+it.Name(), "./")
				entries[at].Packed, err = p.add(fsys, below, info)
			}
			if err != nil {
				return Packed{}, err
			}
		}
		return p.folder(name, entries, attributes)
	}
	detail := "only files, folders and symbolic links can be packed, and links only with ReadLink"
	failure := &Error{Status: ErrFileNotFile, Offset: -1, detail: detail}
	return Packed{}, &fs.PathError{Op: "pack", Path: name, Err: failure}
}
