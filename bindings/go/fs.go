package kombilad

import (
	"io"
	"io/fs"
	"path"
	"sort"
	"strings"
	"time"
)

// FS is a read-only file system: a folder of UnixFS, plain or sharded, and all that is below it. It
// implements [fs.FS], [fs.ReadDirFS] and [fs.StatFS]. Each block is verified.
//
// Symbolic links aren't followed. They have [fs.ModeSymlink], ReadLink returns their target, and
// Open fails. Entries other than files, folders and links of UnixFS have [fs.ModeIrregular], and
// Open fails for them too.
//
// The permissions and the time are those in the block. Without permissions, a file has 0o444, a
// folder 0o555 and a link 0o777. Without a time, it is the zero time. The size of a folder is 0,
// and that of a link is the length of its target. Sys of an [fs.FileInfo] returns the [Cid].
//
// An FS keeps no blocks: each call gets those that lead to the name. ReadDir also gets the block of
// each entry that isn't raw, since only the block has its type. If you need only names and CIDs,
// use a [FolderReader]. Goroutines may use an FS at the same time if its [BlockGetter] allows that.
//
// An error is an [fs.PathError], except that Read, Seek, ReadAt and Close of a file fail like those
// of a [FileReader]. The reason is [fs.ErrInvalid] if [fs.ValidPath] is false, [fs.ErrNotExist] if
// a folder has no such entry, [fs.ErrClosed] after Close, and otherwise an [Error].
type FS struct {
	get    BlockGetter
	within fileLimits
	root   Cid
}

// NewFS gets the block of a CID, and returns the file system of the folder.
//
// It fails with ErrFolderNotFolder if the CID isn't that of a folder, and with the errors of
// ReadNode and of the BlockGetter.
func NewFS(get BlockGetter, root Cid) (*FS, error) {
	return FileOptions{}.NewFS(get, root)
}

// NewFS is like the function NewFS. Each file has to be within these limits.
func (o FileOptions) NewFS(get BlockGetter, root Cid) (*FS, error) {
	info, _, err := get.info(".", root)
	if err != nil {
		return nil, err
	}
	if !info.IsDir() {
		return nil, failedIn(root, outcome{status: ErrFolderNotFolder})
	}
	return &FS{get, o.limits(), root}, nil
}

// Open opens a file or a folder. A file implements [io.Seeker] and [io.ReaderAt], and a folder
// [fs.ReadDirFile]. The caller should close it.
//
// ReadDir of a folder gets one block after the other, in the order of a [FolderReader]. If it
// fails, it returns the entries before the error, and the next call asks for the block again.
//
// Open fails with ErrFileNotFile for a symbolic link, and with ErrFileCodec for a CID whose codec
// is neither Raw nor DagPb.
func (f *FS) Open(name string) (fs.File, error) {
	info, block, err := f.find("open", name)
	if err != nil {
		return nil, err
	}
	of := blockWalk{get: f.get, cid: info.cid, block: block}
	if info.IsDir() {
		return &openFolder{path: name, info: info, of: of}, nil
	}
	reader, err := (*FileReader)(nil), error(failedIn(info.cid, outcome{status: ErrFileCodec}))
	if info.node.Kind != notNode {
		reader, err = newFileReader(of, f.within, info.size)
	}
	if err != nil {
		return nil, &fs.PathError{Op: "open", Path: name, Err: err}
	}
	return &openFile{reader, name, info}, nil
}

// Stat returns the [fs.FileInfo] of a file, a folder or a symbolic link.
func (f *FS) Stat(name string) (fs.FileInfo, error) {
	info, _, err := f.find("stat", name)
	if err != nil {
		return nil, err
	}
	return info, nil
}

// ReadDir returns the entries of a folder in the order of their names. If it fails, it returns the
// entries that were listed before the error.
func (f *FS) ReadDir(name string) ([]fs.DirEntry, error) {
	info, block, err := f.find("readdir", name)
	if err != nil {
		return nil, err
	}
	if !info.IsDir() {
		err := failedIn(info.cid, outcome{status: ErrFolderNotFolder})
		return nil, &fs.PathError{Op: "readdir", Path: name, Err: err}
	}
	of := blockWalk{get: f.get, cid: info.cid, block: block}
	folder := &openFolder{path: name, info: info, of: of}
	defer folder.Close()
	list, err := folder.ReadDir(-1)
	sort.Slice(list, func(i, j int) bool { return list[i].Name() < list[j].Name() })
	return list, err
}

// ReadLink returns the target of a symbolic link, which can be any bytes: see [SymlinkStaysInside].
// For anything else it fails with [fs.ErrInvalid].
func (f *FS) ReadLink(name string) (string, error) {
	info, _, err := f.find("readlink", name)
	if err != nil {
		return "", err
	}
	if info.node.Kind != NodeSymlink {
		return "", &fs.PathError{Op: "readlink", Path: name, Err: fs.ErrInvalid}
	}
	return info.node.Target, nil
}

// find returns the fs.FileInfo of a path, and the block.
func (f *FS) find(op, name string) (*fileInfo, []byte, error) {
	cid, err := f.cidAt(name)
	if err == nil {
		var info *fileInfo
		var block []byte
		if info, block, err = f.get.info(path.Base(name), cid); err == nil {
			return info, block, nil
		}
	}
	return nil, nil, &fs.PathError{Op: op, Path: name, Err: err}
}

func (f *FS) cidAt(name string) (Cid, error) {
	if !fs.ValidPath(name) {
		return Cid{}, fs.ErrInvalid
	}
	cid := f.root
	for more := name != "."; more; {
		var segment string
		segment, name, more = strings.Cut(name, "/")
		var err error
		if cid, err = f.get.lookUp(cid, segment); err != nil {
			return Cid{}, err
		}
	}
	return cid, nil
}

// fileInfo is the fs.FileInfo of a file, a folder, a link or another entry.
type fileInfo struct {
	name string
	cid  Cid
	node Node
	size int64
}

// notNode is the kind of a block that isn't one of UnixFS.
const notNode = ^NodeKind(0)

// info gets the block of a CID, and returns the fs.FileInfo of the entry with this name. If the
// codec isn't one of UnixFS, it gets no block.
func (get BlockGetter) info(name string, cid Cid) (*fileInfo, []byte, error) {
	info := &fileInfo{name: name, cid: cid}
	if codec := cid.Codec(); cid.Defined() && codec != DagPb && codec != Raw {
		info.node.Kind = notNode
		return info, nil, nil
	}
	block, err := get.block(cid)
	if err != nil {
		return nil, nil, err
	}
	if info.node, err = ReadNode(cid, block); err != nil {
		return nil, nil, err
	}
	if info.size, err = fileSize(cid, info.node); err != nil {
		return nil, nil, err
	}
	return info, block, nil
}

func (i *fileInfo) Name() string       { return i.name }
func (i *fileInfo) ModTime() time.Time { return i.node.ModTime }
func (i *fileInfo) IsDir() bool        { return i.Mode().IsDir() }
func (i *fileInfo) Sys() any           { return i.cid }

func (i *fileInfo) Size() int64 {
	if i.node.Kind == NodeSymlink {
		return int64(len(i.node.Target))
	}
	return i.size
}

func (i *fileInfo) Mode() fs.FileMode {
	mode := fs.ModeIrregular | 0o444
	switch i.node.Kind {
	case NodeFile, NodeRaw:
		mode = 0o444
	case NodeFolder, NodeShard:
		mode = fs.ModeDir | 0o555
	case NodeSymlink:
		mode = fs.ModeSymlink | 0o777
	}
	if i.node.HasMode {
		mode = mode.Type() | fs.FileMode(i.node.Mode)&fs.ModePerm
	}
	return mode
}

// dirEntry is an entry of a folder. If its block is raw, it has no size yet.
type dirEntry struct {
	get  BlockGetter
	info *fileInfo
}

func (e *dirEntry) Name() string      { return e.info.name }
func (e *dirEntry) IsDir() bool       { return e.info.IsDir() }
func (e *dirEntry) Type() fs.FileMode { return e.info.Mode().Type() }

// Info gets the block if it is raw.
func (e *dirEntry) Info() (fs.FileInfo, error) {
	if e.info.cid.Codec() != Raw {
		return e.info, nil
	}
	info, _, err := e.get.info(e.info.name, e.info.cid)
	if err != nil {
		return nil, &fs.PathError{Op: "stat", Path: e.info.name, Err: err}
	}
	return info, nil
}

// openFile is an open file of an FS.
type openFile struct {
	*FileReader
	path string
	info *fileInfo
}

func (f *openFile) Stat() (fs.FileInfo, error) {
	if f.walk == nil {
		return nil, &fs.PathError{Op: "stat", Path: f.path, Err: fs.ErrClosed}
	}
	return f.info, nil
}

// openFolder is an open folder of an FS.
type openFolder struct {
	path     string
	info     *fileInfo
	of       blockWalk
	entries  *FolderReader // nil before ReadDir
	isClosed bool
}

func (d *openFolder) failed(op string, err error) error {
	return &fs.PathError{Op: op, Path: d.path, Err: err}
}

func (d *openFolder) Stat() (fs.FileInfo, error) {
	if d.isClosed {
		return nil, d.failed("stat", fs.ErrClosed)
	}
	return d.info, nil
}

func (d *openFolder) Read([]byte) (int, error) {
	if d.isClosed {
		return 0, d.failed("read", fs.ErrClosed)
	}
	return 0, d.failed("read", failedIn(d.info.cid, outcome{status: ErrFileNotFile}))
}

func (d *openFolder) Close() error {
	if d.isClosed {
		return d.failed("close", fs.ErrClosed)
	}
	d.isClosed, d.of.block = true, nil
	if d.entries != nil {
		return d.entries.Close()
	}
	return nil
}

func (d *openFolder) ReadDir(count int) ([]fs.DirEntry, error) {
	list := []fs.DirEntry{}
	for count <= 0 || len(list) < count {
		entry, err := d.next()
		if err == io.EOF && (count <= 0 || len(list) > 0) {
			return list, nil
		}
		if err == io.EOF {
			return list, err
		}
		if err != nil {
			return list, d.failed("readdir", err)
		}
		list = append(list, entry)
	}
	return list, nil
}

// next returns the next entry. After an error the entry is still the next.
func (d *openFolder) next() (fs.DirEntry, error) {
	if d.isClosed {
		return nil, fs.ErrClosed
	}
	if d.entries == nil {
		reader, err := newFolderReader(d.of)
		if err != nil {
			return nil, err
		}
		d.entries, d.of.block = reader, nil
	}
	entry, err := d.entries.peek()
	if err != nil {
		return nil, err
	}
	info := &fileInfo{name: entry.Name, cid: entry.Cid}
	if entry.Cid.Codec() != Raw {
		if info, err = d.infoOf(entry); err != nil {
			return nil, err
		}
	}
	if d.isClosed { // by the BlockGetter
		return nil, fs.ErrClosed
	}
	d.entries.skip()
	return &dirEntry{d.of.get, info}, nil
}

func (d *openFolder) infoOf(entry FolderEntry) (*fileInfo, error) {
	d.entries.inGet = true
	defer func() { d.entries.inGet = false }()
	info, _, err := d.of.get.info(entry.Name, entry.Cid)
	return info, err
}
