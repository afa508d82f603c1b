package kombilad

import (
	"bytes"
	"encoding/binary"
	"encoding/hex"
	"errors"
	"fmt"
	"io"
	"io/fs"
	"math"
	"runtime"
	"sort"
	"strings"
	"sync"
	"testing"
	"testing/fstest"
	"testing/iotest"
	"time"
)

// treeRow is what test/cases.py has found at a path.
type treeRow struct {
	Path, Cid, Kind string
	Mode            *uint32
	Time            []int64
	Content, Target string
	Edges           []int64
	Names           []string
}

// tree is a folder with its blocks.
type tree struct {
	root   Cid
	blocks map[Cid][]byte
	rows   map[string]treeRow
}

func (it tree) get(cid Cid) ([]byte, error) {
	return it.blocks[cid], nil
}

// without returns a getter that has another block for a CID, or none.
func (it tree) without(cid Cid, other []byte) BlockGetter {
	return func(wanted Cid) ([]byte, error) {
		if wanted == cid {
			return other, nil
		}
		return it.blocks[wanted], nil
	}
}

// some returns the CIDs of the root and of some other blocks.
func (it tree) some() []Cid {
	found := []Cid{it.root}
	for cid := range it.blocks {
		if cid.Digest()[0]%8 == 0 {
			found = append(found, cid)
		}
	}
	return found
}

func (it tree) cid(t testing.TB, path string) Cid {
	cid, err := CidFromBytes(unhex(t, it.rows[path].Cid))
	if err != nil {
		t.Fatal(path, err)
	}
	return cid
}

func (it tree) content(t testing.TB, path string) []byte {
	return unhex(t, it.rows[path].Content)
}

func treeOf(t testing.TB, it randomCase) tree {
	root, err := CidFromBytes(unhex(t, it.Input))
	if err != nil {
		t.Fatal(err)
	}
	found := tree{root, map[Cid][]byte{}, map[string]treeRow{}}
	for _, pair := range it.Blocks {
		cid, err := CidFromBytes(unhex(t, pair[0]))
		if err != nil {
			t.Fatal(err)
		}
		if cid.HashCode() != Identity {
			found.blocks[cid] = unhex(t, pair[1])
		}
	}
	for _, row := range it.Tree {
		found.rows[row.Path] = row
	}
	return found
}

// treeNamed returns one of the trees that have a name.
func treeNamed(t *testing.T, name string) (found tree) {
	eachCase(t, func(it randomCase, _ []byte) bool {
		if it.Name == name {
			found = treeOf(t, it)
		}
		return it.Name != name
	})
	return found
}

func newFS(t testing.TB, get BlockGetter, root Cid) *FS {
	fsys, err := NewFS(get, root)
	if err != nil {
		t.Fatal(err)
	}
	return fsys
}

func newFile(t testing.TB, get BlockGetter, cid Cid) *FileReader {
	r, err := NewFileReader(get, cid)
	if err != nil {
		t.Fatal(err)
	}
	return r
}

// checkTreeCase compares a folder and all that is below it with what a reader in Python has found.
func checkTreeCase(t *testing.T, it randomCase, _ []byte, _ Status) {
	found := treeOf(t, it)
	fsys := newFS(t, found.get, found.root)
	listed := map[string]fs.FileInfo{}
	same(t, "WalkDir", fs.WalkDir(fsys, ".", func(path string, entry fs.DirEntry, err error) error {
		if err == nil {
			listed[path], err = entry.Info()
		}
		return err
	}), nil)
	same(t, "paths", len(listed), len(found.rows))
	for path, row := range found.rows {
		if it.Name == "large" && !strings.HasSuffix(path, "99") && path != "." {
			same(t, "Size "+path, listed[path].Size(), int64(len(row.Content)/2))
			continue
		}
		info, err := fsys.Stat(path)
		if err != nil {
			t.Fatal(path, err)
		}
		same(t, "Info "+path, listed[path], info)
		checkRow(t, fsys, row, info)
		cid := found.cid(t, path)
		same(t, "Sys", info.Sys(), cid)
		switch row.Kind {
		case "file":
			checkFile(t, newFile(t, found.get, cid), row)
		case "folder":
			checkFolder(t, found, row)
		}
		if t.Failed() {
			t.Fatal(path)
		}
	}
}

// checkRow compares what an FS has at a path.
func checkRow(t *testing.T, fsys *FS, row treeRow, info fs.FileInfo) {
	mode := map[string]fs.FileMode{
		"file": 0o444, "folder": 0o555 | fs.ModeDir, "link": 0o777 | fs.ModeSymlink, "other": 0o444 | fs.ModeIrregular,
	}[row.Kind]
	if row.Mode != nil {
		mode = mode.Type() | fs.FileMode(*row.Mode&0o777)
	}
	same(t, "Mode", info.Mode(), mode)
	same(t, "IsDir", info.IsDir(), row.Kind == "folder")
	same(t, "Size", info.Size(), int64(len(row.Content)+len(row.Target))/2)
	if row.Time == nil {
		same(t, "ModTime", info.ModTime().IsZero(), true)
	} else {
		same(t, "ModTime", []int64{info.ModTime().Unix(), int64(info.ModTime().Nanosecond())}, row.Time)
	}
	target, err := fsys.ReadLink(row.Path)
	same(t, "ReadLink", []any{hex.EncodeToString([]byte(target)), errors.Is(err, fs.ErrInvalid)}, []any{row.Target, row.Kind != "link"})
	file, err := fsys.Open(row.Path)
	switch row.Kind {
	case "link":
		samePathError(t, "Open", err, "open", row.Path, ErrFileNotFile)
	case "other":
		same(t, "Open", errors.Is(err, ErrFileCodec) || errors.Is(err, ErrFileNotFile), true)
	default:
		same(t, "Open", err, nil)
		again, err := file.Stat()
		same(t, "Stat", []any{again, err}, []any{info, nil})
		same(t, "Close", file.Close(), nil)
	}
	entries, err := fsys.ReadDir(row.Path)
	if row.Kind != "folder" {
		samePathError(t, "ReadDir", err, "readdir", row.Path, ErrFolderNotFolder)
		return
	}
	names := []string{}
	for _, entry := range entries {
		names = append(names, entry.Name())
	}
	same(t, "ReadDir", []any{names, err}, []any{row.Names, nil})
}

func samePathError(t *testing.T, what string, err error, op, path string, reason error) {
	t.Helper()
	var found *fs.PathError
	if !errors.As(err, &found) || found.Op != op || found.Path != path || !errors.Is(err, reason) {
		t.Errorf("%s: %v, and not an error of %s %s: %v", what, err, op, path, reason)
	}
}

// checkFile reads a file as a whole, and from the bytes around the edges of its blocks on.
func checkFile(t *testing.T, r *FileReader, row treeRow) {
	defer r.Close()
	content := unhex(t, row.Content)
	same(t, "Size", r.Size(), int64(len(content)))
	for _, reader := range []io.Reader{r, iotest.OneByteReader(r), iotest.HalfReader(r)} {
		read, err := io.ReadAll(reader)
		same(t, "Read", []any{hex.EncodeToString(read), err}, []any{row.Content, nil})
		at, err := r.Seek(0, io.SeekStart)
		same(t, "Seek", []any{at, err}, []any{int64(0), nil})
	}
	for _, edge := range append(row.Edges, r.Size()) {
		for at := edge - 1; at <= edge+1; at++ {
			for _, count := range []int{1, 2, 77} {
				past := content[min(max(int(at), 0), len(content)):]
				past = past[:min(count, len(past))]
				if at < 0 {
					_, err := r.Seek(at, io.SeekStart)
					same(t, "Seek", errors.Is(err, fs.ErrInvalid), true)
					_, err = r.ReadAt(nil, at)
					same(t, "ReadAt", errors.Is(err, fs.ErrInvalid), true)
					continue
				}
				found, err := r.Seek(at-r.Size(), io.SeekEnd)
				same(t, "Seek", []any{found, err}, []any{at, nil})
				part := make([]byte, count)
				length, err := io.ReadFull(r, part)
				same(t, "Read", part[:length], past)
				same(t, "Read", err == nil, length == count)
				length, err = r.ReadAt(part, at)
				same(t, "ReadAt", part[:length], past)
				same(t, "ReadAt", err, map[bool]error{true: nil, false: io.EOF}[length == count])
			}
		}
	}
}

func checkFolder(t *testing.T, of tree, row treeRow) {
	folder, err := NewFolderReader(of.get, of.cid(t, row.Path))
	if err != nil {
		t.Fatal(row.Path, err)
	}
	defer folder.Close()
	names := []string{}
	folder.Entries()(func(entry FolderEntry) bool {
		path := strings.TrimPrefix(row.Path+"/"+entry.Name, "./")
		same(t, "Cid", hex.EncodeToString(entry.Cid.Bytes()), of.rows[path].Cid)
		same(t, "HasTsize", entry.HasTsize, true)
		names = append(names, entry.Name)
		return true
	})
	same(t, "Err", folder.Err(), nil)
	_, err = folder.Next()
	same(t, "Next", err, io.EOF)
	sort.Strings(names)
	same(t, "names", names, row.Names)
}

// checkFaultCase reads a file or a folder that isn't valid, with the block at fault that a reader
// in Python has found.
func checkFaultCase(t *testing.T, it randomCase, _ []byte, _ Status) {
	found := treeOf(t, it)
	var err error
	if it.Kind == "file" {
		var r *FileReader
		if r, err = NewFileReader(found.get, found.root); err == nil {
			defer r.Close()
			_, err = io.ReadAll(r)
		}
	} else {
		var folder *FolderReader
		if folder, err = NewFolderReader(found.get, found.root); err == nil {
			defer folder.Close()
			folder.Entries()(func(FolderEntry) bool { return true })
			err = folder.Err()
		}
	}
	var failure *Error
	if !errors.As(err, &failure) {
		t.Fatal(err)
	}
	same(t, "Cid", hex.EncodeToString(failure.Cid.Bytes()), it.Cid)
	isExpected := false
	for _, name := range it.Errors {
		isExpected = isExpected || failure.Status == statuses(t)[name] && failure.Status != 0
	}
	if !isExpected {
		t.Errorf("%v, and not %v", err, it.Errors)
	}
}

func TestFSOfTheStandardLibrary(t *testing.T) {
	for _, name := range []string{"plain", "sharded"} {
		found := treeNamed(t, name)
		paths := []string{}
		for path := range found.rows {
			if path != "." {
				paths = append(paths, path)
			}
		}
		if err := fstest.TestFS(newFS(t, found.get, found.root), paths...); err != nil {
			t.Fatalf("%.5000s", err.Error())
		}
	}
}

// readAll reads all that is in a folder in each way, and returns the first error of each.
func readAll(get BlockGetter, root Cid) []error {
	found := []error{}
	folder, err := NewFolderReader(get, root)
	if err == nil {
		folder.Entries()(func(FolderEntry) bool { return true })
		err = folder.Err()
		_ = folder.Close()
	}
	found = append(found, err)
	fsys, err := NewFS(get, root)
	if err == nil {
		err = fs.WalkDir(fsys, ".", func(path string, entry fs.DirEntry, err error) error {
			if err != nil || !entry.Type().IsRegular() {
				return err
			}
			if _, err := entry.Info(); err != nil {
				return err
			}
			_, err = fs.ReadFile(fsys, path)
			return err
		})
	}
	return append(found, err)
}

func TestWrongAndMissingBlocks(t *testing.T) {
	found := treeNamed(t, "mixed")
	other := []byte("another block")
	shortest := NewCid(Raw, nil)
	for _, cid := range found.some() {
		block := found.blocks[cid]
		for _, changed := range [][]byte{nil, {}, other, append(block[:len(block):len(block)], 0), block[:len(block)/2]} {
			if len(changed) == len(block) || cid == shortest && changed == nil {
				continue
			}
			for at, err := range readAll(found.without(cid, changed), found.root) {
				if err == nil && (at == 0 || cid.Codec() == DagCbor) {
					continue // the block isn't one of the folder's own
				}
				var failure *Error
				if !errors.As(err, &failure) || failure.Cid != cid || failure.Offset != -1 {
					t.Fatalf("%v: %v", cid, err)
				}
				if changed == nil {
					same(t, "a missing block", failure.Status, ErrMissingBlock)
					same(t, "a missing block", failure.Error(), "kombilad: the block "+cid.String()+" is missing")
				} else {
					same(t, "another block", failure.Status, ErrWrongDigest)
					same(t, "another block", failure.Error(), "kombilad: the digest of the block is not that of the CID, in block "+cid.String())
				}
			}
		}
	}
	same(t, "all blocks", readAll(found.get, found.root), []error{nil, nil})
}

func TestErrorsOfABlockGetter(t *testing.T) {
	found := treeNamed(t, "plain")
	broken := fmt.Errorf("no network")
	for _, cid := range found.some() {
		fails := true
		get := func(wanted Cid) ([]byte, error) {
			if wanted == cid && fails {
				return found.blocks[wanted], broken
			}
			return found.blocks[wanted], nil
		}
		for at, err := range readAll(get, found.root) {
			if err == nil && at == 0 {
				continue
			}
			same(t, "error", []bool{errors.Is(err, broken), errors.Is(err, ErrBlockGetter)}, []bool{true, true})
			if !strings.HasSuffix(err.Error(), "kombilad: cannot get the block "+cid.String()+": no network") {
				t.Fatal(err)
			}
		}
		// After an error, each asks for the block again.
		r, err := NewFileReader(get, found.cid(t, "leaves"))
		if err == nil {
			read, err := io.ReadAll(r)
			if err != nil {
				same(t, "Read", errors.Is(err, broken), true)
				fails = false
				rest, err := io.ReadAll(r)
				same(t, "Read", err, nil)
				read = append(read, rest...)
			}
			same(t, "Read", bytes.Equal(read, found.content(t, "leaves")), true)
			same(t, "Close", r.Close(), nil)
		}
		fails = true
		folder, err := newFS(t, found.get, found.root).Open("shards")
		same(t, "Open", err, nil)
		folder.(*openFolder).of.get = get
		list, err := folder.(fs.ReadDirFile).ReadDir(-1)
		if err != nil {
			samePathError(t, "ReadDir", err, "readdir", "shards", broken)
			fails = false
			rest, err := folder.(fs.ReadDirFile).ReadDir(-1)
			same(t, "ReadDir", err, nil)
			list = append(list, rest...)
		}
		same(t, "ReadDir", len(list), 101)
		same(t, "Close", folder.Close(), nil)
	}
	fsys := newFS(t, found.get, found.root)
	_, err := fsys.Open("leaves/x")
	samePathError(t, "Open", err, "open", "leaves/x", ErrFolderNotFolder)
	same(t, "Open", errors.Is(err, fs.ErrNotExist), false)
	for _, path := range []string{"x", "shards/x", "shards/below/x"} {
		_, err := fsys.Open(path)
		samePathError(t, "Open", err, "open", path, fs.ErrNotExist)
		_, err = fsys.Stat(path)
		samePathError(t, "Stat", err, "stat", path, fs.ErrNotExist)
		_, err = fsys.ReadDir(path)
		samePathError(t, "ReadDir", err, "readdir", path, fs.ErrNotExist)
		_, err = fsys.ReadLink(path)
		samePathError(t, "ReadLink", err, "readlink", path, fs.ErrNotExist)
	}
	for _, path := range []string{"", "/", "shards/", "./shards", "../x", "shards//0.txt", "a\xff"} {
		_, err := fsys.Open(path)
		samePathError(t, "Open", err, "open", path, fs.ErrInvalid)
	}
}

func TestABlockGetterThatCallsBack(t *testing.T) {
	found := treeNamed(t, "plain")
	var call func()
	get := func(cid Cid) ([]byte, error) {
		if use := call; use != nil {
			call = nil
			use()
		}
		return found.blocks[cid], nil
	}
	content := found.content(t, "leaves")
	r := newFile(t, get, found.cid(t, "leaves"))
	call = func() {
		_, err := r.Read(make([]byte, 1))
		sameInUse(t, "Read", err)
		_, err = r.Seek(0, io.SeekStart)
		sameInUse(t, "Seek", err)
		part := make([]byte, 5)
		count, err := r.ReadAt(part, 1000)
		same(t, "ReadAt", []any{count, err, part}, []any{5, nil, content[1000:1005]})
	}
	read, err := io.ReadAll(r)
	same(t, "Read", []any{bytes.Equal(read, content), err, call == nil}, []any{true, nil, true})
	_, _ = r.Seek(0, io.SeekStart)
	call = func() { same(t, "Close", r.Close(), nil) }
	_, err = r.Read(make([]byte, 1))
	same(t, "Read", err, fs.ErrClosed)

	folder, err := NewFolderReader(get, found.cid(t, "shards"))
	same(t, "NewFolderReader", err, nil)
	call = func() {
		_, err := folder.Next()
		sameInUse(t, "Next", err)
	}
	names := map[string]bool{}
	folder.Entries()(func(entry FolderEntry) bool {
		names[entry.Name] = true
		return true
	})
	same(t, "Entries", []any{len(names), folder.Err(), call == nil}, []any{101, nil, true})
	same(t, "Close", folder.Close(), nil)

	fsys := newFS(t, get, found.root)
	open := func() fs.ReadDirFile {
		file, err := fsys.Open("shards")
		same(t, "Open", err, nil)
		return file.(fs.ReadDirFile)
	}
	again := open()
	call = func() {
		_, err := again.ReadDir(1)
		sameInUse(t, "ReadDir", err)
	}
	list, err := again.ReadDir(-1)
	same(t, "ReadDir", []any{len(list), err, call == nil}, []any{101, nil, true})
	closed := open()
	call = func() { same(t, "Close", closed.Close(), nil) }
	_, err = closed.ReadDir(-1)
	samePathError(t, "ReadDir", err, "readdir", "shards", fs.ErrClosed)

	// A panic passes through, and the reader can be used afterwards.
	r = newFile(t, get, found.cid(t, "leaves"))
	folder, err = NewFolderReader(get, found.cid(t, "shards"))
	same(t, "NewFolderReader", err, nil)
	listed := open()
	for name, use := range map[string]func(){
		"Read":            func() { _, _ = io.ReadAll(r) },
		"ReadAt":          func() { _, _ = r.ReadAt(make([]byte, 1), 2000) },
		"Next":            func() { folder.Entries()(func(FolderEntry) bool { return true }) },
		"ReadDir":         func() { _, _ = listed.ReadDir(-1) },
		"NewFS":           func() { _, _ = NewFS(get, found.root) },
		"NewFileReader":   func() { _, _ = NewFileReader(get, found.cid(t, "leaves")) },
		"NewFolderReader": func() { _, _ = NewFolderReader(get, found.cid(t, "shards")) },
		"Open":            func() { _, _ = fsys.Open("leaves") },
	} {
		call = func() { panic(name) }
		func() {
			defer func() { same(t, name, recover(), name) }()
			use()
		}()
	}
	same(t, "Read", iotest.TestReader(readSeeker{r, r}, content), nil)
	count := 0
	folder.Entries()(func(FolderEntry) bool { count++; return true })
	same(t, "Next", []any{count > 0, folder.Err()}, []any{true, nil})
	list, err = listed.ReadDir(-1)
	same(t, "ReadDir", []any{len(list) > 0, err}, []any{true, nil})
}

// readSeeker hides ReadAt, which is tested elsewhere.
type readSeeker struct {
	io.Reader
	io.Seeker
}

func sameInUse(t *testing.T, what string, err error) {
	t.Helper()
	same(t, what, errors.Is(err, ErrInUse), true)
}

func TestUseAfterClose(t *testing.T) {
	found := treeNamed(t, "plain")
	r := newFile(t, found.get, found.cid(t, "leaves"))
	folder, err := NewFolderReader(found.get, found.cid(t, "shards"))
	same(t, "NewFolderReader", err, nil)
	same(t, "Close", []error{r.Close(), folder.Close()}, []error{nil, nil})
	same(t, "Close", []error{r.Close(), folder.Close()}, []error{fs.ErrClosed, fs.ErrClosed})
	for _, part := range [][]byte{nil, make([]byte, 9)} {
		_, err := r.Read(part)
		same(t, "Read", err, fs.ErrClosed)
		_, err = r.ReadAt(part, 0)
		same(t, "ReadAt", err, fs.ErrClosed)
	}
	_, err = r.Seek(0, io.SeekStart)
	same(t, "Seek", err, fs.ErrClosed)
	_, err = folder.Next()
	same(t, "Next", []error{err, folder.Err()}, []error{fs.ErrClosed, fs.ErrClosed})

	fsys := newFS(t, found.get, found.root)
	for _, path := range []string{"leaves", "shards"} {
		file, err := fsys.Open(path)
		same(t, "Open", err, nil)
		if path == "shards" {
			_, err := file.Read(nil)
			samePathError(t, "Read", err, "read", path, ErrFileNotFile)
			list, err := file.(fs.ReadDirFile).ReadDir(7)
			same(t, "ReadDir", []any{len(list), err}, []any{7, nil})
		}
		same(t, "Close", file.Close(), nil)
		same(t, "Close", errors.Is(file.Close(), fs.ErrClosed), true)
		_, err = file.Read(nil)
		same(t, "Read", errors.Is(err, fs.ErrClosed), true)
		_, err = file.Stat()
		samePathError(t, "Stat", err, "stat", path, fs.ErrClosed)
		if folder, isFolder := file.(fs.ReadDirFile); isFolder {
			_, err := folder.ReadDir(1)
			samePathError(t, "ReadDir", err, "readdir", path, fs.ErrClosed)
		}
	}
}

func TestLimitsOfFiles(t *testing.T) {
	found := treeNamed(t, "plain")
	cid, content := found.cid(t, "leaves"), found.content(t, "leaves")
	blocks := map[Cid]bool{}
	count := 0
	r := newFile(t, func(cid Cid) ([]byte, error) {
		blocks[cid], count = true, count+1
		return found.blocks[cid], nil
	}, cid)
	_, err := io.ReadAll(r)
	same(t, "Read", err, nil)
	exact := FileOptions{MaxBytes: int64(len(content)), MaxBlocks: count, MaxLevels: 3}
	for _, row := range []struct {
		options FileOptions
		status  Status
	}{
		{FileOptions{}, 0}, {exact, 0}, {FileOptions{math.MaxInt64, math.MaxInt, math.MaxInt, math.MaxInt}, 0},
		{FileOptions{MaxBytes: exact.MaxBytes - 1}, ErrFileTooLarge},
		{FileOptions{MaxBytes: -1}, ErrFileTooLarge},
		{FileOptions{MaxBlocks: count - 1}, ErrFileTooManyBlocks},
		{FileOptions{MaxBlocks: -1}, ErrFileTooManyBlocks},
		{FileOptions{MaxWaiting: 1}, ErrFileTooManyParts},
		{FileOptions{MaxWaiting: -1}, ErrFileTooManyParts},
		{FileOptions{MaxLevels: 2}, ErrFileTooDeep},
		{FileOptions{MaxLevels: -1}, ErrFileTooDeep},
	} {
		read := []byte{}
		r, err := row.options.NewFileReader(found.get, cid)
		if err == nil {
			read, err = io.ReadAll(r)
		}
		sameError(t, "a limit", err, row.status, -1)
		same(t, "a limit", bytes.HasPrefix(content, read), true)
		fsys, err := row.options.NewFS(found.get, found.root)
		same(t, "NewFS", err, nil)
		again, err := fs.ReadFile(fsys, "leaves")
		sameError(t, "a limit", err, row.status, -1)
		if row.status == 0 {
			same(t, "Read", bytes.Equal(read, content) && bytes.Equal(again, content), true)
		}
	}
	none := FileOptions{MaxBytes: -1, MaxWaiting: -1, MaxLevels: -1}
	r, err = none.NewFileReader(found.get, NewCid(Raw, nil))
	same(t, "an empty file", err, nil)
	read, err := io.ReadAll(r)
	same(t, "an empty file", []any{len(read), err}, []any{0, nil})
}

func TestOnlyTheBlocksThatAreNeeded(t *testing.T) {
	found := treeNamed(t, "plain")
	asked := 0
	get := func(cid Cid) ([]byte, error) {
		asked++
		return found.blocks[cid], nil
	}
	asks := func(what string, count int, call func()) {
		t.Helper()
		asked = 0
		call()
		same(t, what, asked, count)
	}
	var r *FileReader
	part := make([]byte, 10)
	asks("NewFileReader", 1, func() { r = newFile(t, get, found.cid(t, "leaves")) })
	asks("Seek", 0, func() { _, _ = r.Seek(-1000, io.SeekEnd) })
	// The file has chunks of 100 bytes, and two levels between the root and the leaves.
	asks("Read", 3, func() { _, _ = r.Read(part) })
	asks("Read in the same block", 0, func() { _, _ = r.Read(part) })
	asks("Seek in the same block", 0, func() {
		_, _ = r.Seek(-20, io.SeekCurrent)
		_, _ = r.Read(part)
	})
	asks("Seek to the beginning", 3, func() {
		_, _ = r.Seek(0, io.SeekStart)
		_, _ = r.Read(part)
	})
	asks("Seek after the end", 0, func() {
		_, _ = r.Seek(math.MaxInt64, io.SeekStart)
		count, err := r.Read(part)
		same(t, "Read", []any{count, err}, []any{0, io.EOF})
	})
	asks("ReadAt", 3, func() { _, _ = r.ReadAt(part, 110) })
	_, err := r.Seek(1, io.SeekCurrent)
	same(t, "Seek", err, fs.ErrInvalid)
	_, err = r.Seek(0, 3)
	same(t, "Seek", err, fs.ErrInvalid)
	asks("NewFS", 1, func() { newFS(t, get, found.root) })
	fsys := newFS(t, get, found.root)
	asks("Stat", 2, func() { _, _ = fsys.Stat("leaves") })
	asks("Open", 2, func() { _, _ = fsys.Open("leaves") })
	folder, err := fsys.Open("shards/below")
	same(t, "Open", err, nil)
	asks("ReadDir of raw entries", 0, func() {
		list, err := folder.(fs.ReadDirFile).ReadDir(-1)
		same(t, "ReadDir", []any{len(list), err}, []any{100, nil})
	})
	folder, err = fsys.Open(".")
	same(t, "Open", err, nil)
	asks("ReadDir", 5, func() { // "empty" is raw, and comes first
		list, err := folder.(fs.ReadDirFile).ReadDir(6)
		same(t, "ReadDir", []any{len(list), err}, []any{6, nil})
	})
}

func TestFilesTakeNoMemory(t *testing.T) {
	found := treeNamed(t, "plain")
	r := newFile(t, found.get, found.cid(t, "nodes"))
	buffer := make([]byte, 50)
	read := func() {
		_, err := r.Seek(0, io.SeekStart)
		for err == nil {
			_, err = r.Read(buffer)
		}
		same(t, "Read", err, io.EOF)
	}
	read()
	blocks := 0
	r.get = func(cid Cid) ([]byte, error) {
		blocks++
		return found.blocks[cid], nil
	}
	took := allocated(read)
	if took > uint64(blocks)*200 { // a CID, and a closure
		t.Errorf("%d blocks take %d bytes", blocks, took)
	}
	huge := make([]byte, 1<<20)
	took = allocated(func() {
		_, err := NewFolderReader(func(Cid) ([]byte, error) { return huge, nil }, found.root)
		same(t, "NewFolderReader", errors.Is(err, ErrWrongDigest), true)
	})
	if took > 22<<20 {
		t.Errorf("a block of 1 MiB takes %d bytes", took)
	}
}

func TestGoroutinesUseAnFSAtOnce(t *testing.T) {
	found := treeNamed(t, "plain")
	fsys := newFS(t, found.get, found.root)
	content := found.content(t, "leaves")
	shared := newFile(t, found.get, found.cid(t, "leaves"))
	var all sync.WaitGroup
	for worker := 0; worker < 8; worker++ {
		all.Add(1)
		go func(worker int) {
			defer all.Done()
			for turn := 0; turn < 20; turn++ {
				read, err := fs.ReadFile(fsys, "leaves")
				same(t, "ReadFile", []any{bytes.Equal(read, content), err}, []any{true, nil})
				list, err := fsys.ReadDir("shards")
				same(t, "ReadDir", []any{len(list), err}, []any{101, nil})
				at := worker*100 + turn
				part := make([]byte, 300)
				_, err = shared.ReadAt(part, int64(at))
				same(t, "ReadAt", []any{bytes.Equal(part, content[at:at+300]), err}, []any{true, nil})
				// It isn't closed.
				newFile(t, found.get, found.cid(t, "nodes"))
				if turn%5 == 0 {
					runtime.GC()
				}
			}
		}(worker)
	}
	all.Wait()
}

func TestNodes(t *testing.T) {
	found := treeNamed(t, "mixed")
	node := func(path string) Node {
		cid := found.cid(t, path)
		block, err := BlockGetter(found.get).block(cid)
		same(t, path, err, nil)
		node, err := ReadNode(cid, block)
		same(t, path, err, nil)
		return node
	}
	same(t, "raw", node("empty"), Node{Kind: NodeRaw, HasSize: true})
	same(t, "identity", node("inside"), Node{Kind: NodeRaw, Size: 6, HasSize: true})
	same(t, "file", node("hello.txt"), Node{
		Kind: NodeFile, Size: 6, HasSize: true, Mode: 0o640, HasMode: true,
		ModTime: time.Unix(1_700_000_000, 5).UTC(), HasModTime: true,
	})
	same(t, "7 bytes, and 7 below the links", node("unsized"), Node{Kind: NodeFile, Size: 14, HasSize: true})
	same(t, "10 bytes", node("unsized leaf"), Node{Kind: NodeRaw, Size: 10, HasSize: true})
	same(t, "link", node("link"), Node{Kind: NodeSymlink, Target: "../\xff"})
	same(t, "shard", node("shards"), Node{Kind: NodeShard})
	same(t, "folder", node("shards/below"), Node{Kind: NodeFolder, Mode: 0o700, HasMode: true})
	same(t, "metadata", node("metadata"), Node{Kind: NodeMetadata})
	other := found.cid(t, "other")
	_, err := ReadNode(other, found.blocks[other])
	sameError(t, "another codec", err, ErrFileCodec, -1)
	_, err = ReadNode(found.root, nil)
	sameError(t, "another block", err, ErrWrongDigest, -1)
	for digits, row := range map[string]struct {
		status Status
		offset int64
	}{
		// The offset is in the data for those of UnixFS, and in the block for those of DAG-PB.
		"": {ErrFileNoData, -1}, "0a0108": {ErrUnixFSEnd, 0}, "0a020806": {ErrUnixFSUnknownType, 0},
		"0a0408021805": {0, -1}, "0a0408024801": {ErrUnixFSUnknownField, 2}, "0a0208021a00": {ErrPbUnknownField, 4},
		"0a0208020a00": {ErrPbFieldOrder, 4}, "0a0208": {ErrPbEnd, 0}, "12050a0301550a": {ErrLinkEnd, 2},
	} {
		block := unhex(t, digits)
		cid := NewCid(DagPb, block)
		_, err := ReadNode(cid, block)
		sameError(t, digits, err, row.status, row.offset)
		var failure *Error
		same(t, digits, errors.As(err, &failure) && failure.Cid != cid, false)
	}
}

// nodeOf returns a node of DAG-PB with these fields of links, and data that begin like those of a
// file.
func nodeOf(links []byte, data ...byte) []byte {
	return append(links, append([]byte{0x0a}, framed([]byte{0x08, 0x02}, data)...)...)
}

func TestSizesThatAreWrong(t *testing.T) {
	for size, status := range map[uint64]Status{
		5: ErrFileSize, math.MaxInt64: ErrFileSize, 1 << 63: ErrFileTooLarge, math.MaxUint64: ErrFileTooLarge,
	} {
		block := nodeOf(nil, binary.AppendUvarint([]byte{0x18}, size)...)
		get := func(Cid) ([]byte, error) { return block, nil }
		_, err := NewFileReader(get, NewCid(DagPb, block))
		sameError(t, "NewFileReader", err, status, -1)
	}
	// A link to 2^62 bytes, and no size. Only this block is read to find the size.
	link := append([]byte{0x12}, framed([]byte{0x0a}, framed(NewCid(Raw, []byte("leaf")).Bytes()))...)
	block := nodeOf(link, binary.AppendUvarint([]byte{0x20}, 1<<62)...)
	asked := 0
	get := func(Cid) ([]byte, error) {
		asked++
		return block, nil
	}
	r := newFile(t, get, NewCid(DagPb, block))
	same(t, "Size", []any{r.Size(), asked}, []any{int64(1 << 62), 1})
	_, err := r.Seek(-1, io.SeekEnd)
	same(t, "Seek", err, nil)
	_, err = r.Read(make([]byte, 1))
	sameError(t, "Read", err, ErrWrongDigest, -1)
	at, err := r.Seek(0, io.SeekCurrent)
	same(t, "Seek", []any{at, err}, []any{int64(1<<62 - 1), nil})
}

func TestTheUndefinedCidHasNoTree(t *testing.T) {
	get := func(Cid) ([]byte, error) { return nil, errors.New("asked") }
	_, err := NewFS(get, Cid{})
	sameError(t, "NewFS", err, ErrCidEnd, -1)
	_, err = NewFileReader(get, Cid{})
	sameError(t, "NewFileReader", err, ErrCidEnd, -1)
	_, err = NewFolderReader(get, Cid{})
	sameError(t, "NewFolderReader", err, ErrCidEnd, -1)
	_, err = ReadNode(Cid{}, nil)
	sameError(t, "ReadNode", err, ErrCidEnd, -1)
}

func TestRootsThatAreNotFolders(t *testing.T) {
	found := treeNamed(t, "mixed")
	for _, path := range []string{"empty", "hello.txt", "link", "metadata", "other", "inside"} {
		_, err := NewFS(found.get, found.cid(t, path))
		sameError(t, path, err, ErrFolderNotFolder, -1)
	}
	_, err := NewFolderReader(found.get, found.cid(t, "empty"))
	sameError(t, "raw", err, ErrFolderCodec, -1)
	_, err = NewFileReader(found.get, found.root)
	sameError(t, "a folder", err, ErrFileNotFile, -1)
	_, err = NewFileReader(found.get, found.cid(t, "other"))
	sameError(t, "another codec", err, ErrFileCodec, -1)
}

func TestNamesOutOfOrder(t *testing.T) {
	block := unhex(t, "12090a0401550000120162"+"12090a0401550000120161"+"0a020801")
	get := func(Cid) ([]byte, error) { return block, nil }
	root := NewCid(DagPb, block)
	_, err := NewFolderReader(get, root)
	sameError(t, "NewFolderReader", err, ErrFolderNameOrder, -1)
	text := "kombilad: Links[1]: " + ErrFolderNameOrder.Error() + ", in block " + root.String()
	same(t, "NewFolderReader", err.Error(), text)
	_, err = newFS(t, get, root).Stat("a")
	same(t, "Stat", err.Error(), "stat a: "+text)
}

func TestSymlinkTargets(t *testing.T) {
	for target, depth := range map[string]int{
		"a": 0, "a/b": 0, "": 0, "/a": -1, "..": 1, "../a": 1, "../../a": 2, "a/..": -1, "./a": 0, "\xff": -1,
	} {
		for at := 0; at < 3; at++ {
			same(t, target, SymlinkStaysInside(target, at), depth >= 0 && at >= depth)
		}
	}
	same(t, "a negative depth", SymlinkStaysInside("..", -5), false)
}
