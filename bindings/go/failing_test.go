//go:build kombilad_failing

package kombilad

import (
	"bytes"
	"encoding/hex"
	"errors"
	"io"
	"io/fs"
	"runtime"
	"strings"
	"testing"
	"testing/fstest"
	"testing/iotest"
	"time"
)

func TestEachAllocationMayFail(t *testing.T) {
	defer refuseAfter(-1)
	// Keys out of order, an empty key, 40 levels, and many entries: each needs memory.
	deep := append(bytes.Repeat([]byte{0x81}, 40), 0x80)
	block := append([]byte{0x83, 0xa3, 0x61, 'b', 1, 0x61, 'a', 2, 0x60, 3}, deep...)
	block = append(block, list(make([]any, 3000))...)
	node := unhex(t, "12260a2401551220"+zeros32+"0a0178")
	car := carOf([]Cid{NewCid(Raw, nil)}, []byte("block"))
	cid := NewCid(Raw, nil)
	// A folder with an empty file, and a file of it twice.
	empty := "0a24" + hex.EncodeToString(cid.Bytes())
	folder := unhex(t, "1229"+empty+"120161"+"0a020801")
	file := unhex(t, "1226"+empty+"1226"+empty+"0a06080220002000")
	get := func(cid Cid) ([]byte, error) {
		for _, block := range [][]byte{folder, file} {
			if cid == NewCid(DagPb, block) {
				return block, nil
			}
		}
		return []byte{}, nil
	}
	value, err := Decode(block)
	if err != nil {
		t.Fatal(err)
	}
	text, err := ToJSON(block)
	if err != nil {
		t.Fatal(err)
	}
	discard := func(Cid, []byte) error { return nil }
	packs := func(_ Packed, err error) error { return err }
	chunks := packer(t, PackOptions{1, true, 1, 2, -1, false}, discard)
	entries := namesLike(20, "", Packed{Cid: cid})
	for name, call := range map[string]func() error{
		"Check":          func() error { return Check(block) },
		"CheckCanonical": func() error { return ignore(CheckCanonical(block), ErrNotCanonical) },
		"Canonicalize":   func() error { _, err := Canonicalize(block); return err },
		"ToJSON":         func() error { _, err := ToJSON(block); return err },
		"FromJSON":       func() error { _, err := FromJSON(text); return err },
		"Get":            func() error { _, _, err := Get(block, "1/0/0"); return err },
		"Links":          func() error { _, err := Links(block); return err },
		"CountLinks":     func() error { _, err := CountLinks(block); return err },
		"Decode":         func() error { _, err := Decode(block); return err },
		"Unmarshal":      func() error { var it any; return Unmarshal(block, &it) },
		"Encode":         func() error { _, err := Encode(value); return err },
		"DecodePb":       func() error { _, err := DecodePb(node); return err },
		"OpenCar":        func() error { _, err := OpenCar(bytes.NewReader(car)); return err },
		"ReadNode":       func() error { _, err := ReadNode(NewCid(DagPb, folder), folder); return err },
		"FileReader": func() error {
			r, err := NewFileReader(get, NewCid(DagPb, file))
			if err != nil {
				return err
			}
			defer r.Close()
			if _, err := io.ReadAll(r); err != nil {
				return err
			}
			_, err = r.ReadAt([]byte{0}, 0)
			return ignore(err, io.EOF)
		},
		"FolderReader": func() error {
			r, err := NewFolderReader(get, NewCid(DagPb, folder))
			if err != nil {
				return err
			}
			defer r.Close()
			_, err = r.Next()
			return err
		},
		"FS": func() error {
			fsys, err := NewFS(get, NewCid(DagPb, folder))
			if err != nil {
				return err
			}
			if _, err := fsys.ReadDir("."); err != nil {
				return err
			}
			_, err = fs.ReadFile(fsys, "a")
			return err
		},
		"File":    func() error { return packs(NewPacker(discard).File(strings.NewReader("x"), nil)) },
		"Symlink": func() error { return packs(NewPacker(discard).Symlink("x", nil)) },
		"Folder":  func() error { return packs(chunks.Folder(entries, nil)) },
		"chunks":  func() error { return packs(chunks.File(strings.NewReader(lorem), nil)) },
		"AddFS":   func() error { return packs(chunks.AddFS(fstest.MapFS{"a/b": {Data: []byte("x")}})) },
		"CarWriter": func() error {
			w, err := NewCarWriter(io.Discard, []Cid{cid, cid})
			if err != nil {
				return err
			}
			return w.Write(cid, nil)
		},
		"IndexedCarWriter": func() error {
			w, err := NewIndexedCarWriter(&memoryFile{}, []Cid{cid, cid})
			if err != nil {
				return err
			}
			if err := w.Write(cid, nil); err != nil {
				return err
			}
			return w.Close()
		},
		"StringOfBase": func() error { _, err := cid.StringOfBase(Base58BTC); return err },
	} {
		refused := 0
		for ; ; refused++ {
			refuseAfter(refused)
			err := call()
			if !hasRefused() {
				refuseAfter(-1)
				same(t, name, err, nil)
				break
			}
			sameError(t, name, err, ErrNoMemory, -1)
			if t.Failed() || refused > 10_000 {
				t.Fatalf("%s, allocation %d", name, refused)
			}
		}
		same(t, name+" holds", allocationsHeld(), 0)
		t.Logf("%s: %d allocations refused", name, refused)
	}
}

func TestReadersThatAreNotClosed(t *testing.T) {
	link := append([]byte{0x12}, framed([]byte{0x0a}, framed(NewCid(Raw, []byte("x")).Bytes()))...)
	file := nodeOf(link, 0x20, 1)
	folder := unhex(t, "12090a04015500001201610a020801")
	get := func(cid Cid) ([]byte, error) {
		for _, block := range [][]byte{file, folder} {
			if cid == NewCid(DagPb, block) {
				return block, nil
			}
		}
		panic("a panic of a BlockGetter")
	}
	for at := 0; at < 50; at++ {
		r := newFile(t, get, NewCid(DagPb, file))
		_, err := NewFolderReader(get, NewCid(DagPb, folder))
		same(t, "NewFolderReader", err, nil)
		for _, call := range []func([]byte) (int, error){
			func(p []byte) (int, error) { return r.ReadAt(p, 0) }, r.Read,
		} {
			func() {
				defer func() { same(t, "a panic", recover() != nil, true) }()
				_, _ = call(make([]byte, 1))
			}()
		}
	}
	for end := time.Now().Add(20 * time.Second); allocationsHeld() > 0 && time.Now().Before(end); {
		runtime.GC()
		time.Sleep(time.Millisecond)
	}
	same(t, "allocations held", allocationsHeld(), 0)
	r := newFile(t, get, NewCid(DagPb, file))
	before := allocationsHeld()
	func() {
		defer func() { same(t, "a panic", recover() != nil, true) }()
		_, _ = r.ReadAt(make([]byte, 1), 0)
	}()
	same(t, "ReadAt holds", allocationsHeld(), before)
	same(t, "Close", r.Close(), nil)
	same(t, "Close holds", allocationsHeld(), 0)
}

// TestPackingThatStops has a put and a reader stop in the middle of a file and of a folder.
func TestPackingThatStops(t *testing.T) {
	stops := 0
	p := packer(t, PackOptions{ChunkSize: 1, MaxLinks: 2, ShardedAbove: -1}, func(Cid, []byte) error {
		switch stops--; stops {
		case -1:
			return io.ErrClosedPipe
		case -2:
			panic("a panic of a BlockPutter")
		}
		return nil
	})
	entries := namesLike(50, "", Packed{Cid: NewCid(Raw, nil)})
	for _, pack := range []func() (Packed, error){
		func() (Packed, error) { return p.File(strings.NewReader(lorem), nil) },
		func() (Packed, error) { return p.Folder(entries, nil) },
		func() (Packed, error) { return p.Symlink("x", nil) },
	} {
		for at := -1; at < 50; at++ {
			func() {
				defer func() { same(t, "a panic", recover() != nil, at == -1) }()
				stops = at
				_, err := pack()
				same(t, "put", err == nil || err == io.ErrClosedPipe, true)
			}()
			same(t, "allocations held", allocationsHeld(), 0)
		}
	}
	stops = 1000
	for at := range lorem[:20] {
		_, err := p.File(io.MultiReader(strings.NewReader(lorem[:at]), iotest.ErrReader(io.ErrClosedPipe)), nil)
		same(t, "a reader", []any{err, allocationsHeld()}, []any{io.ErrClosedPipe, 0})
	}
}

func ignore(err, ignored error) error {
	if errors.Is(err, ignored) {
		return nil
	}
	return err
}
