package kombilad

import (
	"bytes"
	"errors"
	"io"
	"reflect"
	"testing"
	"testing/iotest"
)

// seeds adds blocks of each kind.
func seeds(f *testing.F) {
	for _, digits := range []string{
		"f6", "a2616101616cd82a450001550000", "a26162016161fb3ff8000000000000", "3bffffffffffffffff",
		"8361ff6080", "a2616101616102", "d82a4500015500", "98190102030405060708090a0b0c0d0e0f", "9bffffffffffffffff",
		"120b0a040155000012016118010a026869",
	} {
		f.Add(unhex(f, digits))
	}
	f.Add(nested(40, "\x81"))
	f.Add(nested(40, "\xa1\x60"))
}

// FuzzDecode checks that all calls agree on a block, and that the offsets are within it.
func FuzzDecode(f *testing.F) {
	seeds(f)
	f.Fuzz(func(t *testing.T, block []byte) {
		err := Check(block)
		value, decodeErr := Decode(block)
		same(t, "Decode", decodeErr, err)
		links, linksErr := Links(block)
		same(t, "Links", linksErr, err)
		var typed any
		same(t, "Unmarshal", Unmarshal(block, &typed), err)
		canonical, canonicalErr := Canonicalize(block)
		same(t, "Canonicalize", canonicalErr, err)
		var failure *Error
		if errors.As(err, &failure) && (failure.Offset < 0 || failure.Offset > int64(len(block))) {
			t.Errorf("the offset is %d", failure.Offset)
		}
		if err == nil {
			same(t, "Unmarshal", typed, value)
			same(t, "CheckCanonical", CheckCanonical(canonical), nil)
			positions, err := LinkPositions(block)
			same(t, "LinkPositions", err, nil)
			for at, it := range positions {
				same(t, "Links", string(block[it.Offset:it.Offset+it.Len]), links[at].KeyString())
			}
		}
		if node, err := DecodePb(block); err == nil {
			links, err := BlockLinks(NewCid(DagPb, nil), block)
			same(t, "BlockLinks", []any{len(links), err}, []any{len(node.Links), nil})
		}
	})
}

// every has a field of each kind.
type every struct {
	Bool   bool            `ipld:"a,omitempty"`
	Int    int8            `ipld:"b,omitempty"`
	Uint   uint16          `ipld:"c,omitempty"`
	Float  float64         `ipld:"d,omitempty"`
	String string          `ipld:"e,omitempty"`
	Bytes  []byte          `ipld:"f,omitempty"`
	Link   Cid             `ipld:"g,omitempty"`
	List   []every         `ipld:"h,omitempty"`
	Map    map[string]*int `ipld:"i,omitempty"`
	Next   *every          `ipld:"j,omitempty"`
	Any    any             `ipld:"k,omitempty"`
}

// FuzzRoundTrip checks that the value of a block is encoded as its canonical block. It checks that
// a decoded Go value has the same block after it is encoded and decoded again.
func FuzzRoundTrip(f *testing.F) {
	seeds(f)
	full, err := Marshal(every{
		true, -1, 2, 3.5, "e", []byte{6}, NewCid(Raw, nil), []every{{Int: 1}}, map[string]*int{"x": new(int)}, &every{Uint: 7}, "any",
	})
	if err != nil {
		f.Fatal(err)
	}
	f.Add(full)
	f.Fuzz(func(t *testing.T, block []byte) {
		if value, err := Decode(block); err == nil {
			canonical, err := Canonicalize(block)
			same(t, "Canonicalize", err, nil)
			encoded, err := Encode(value)
			same(t, "Encode", err, nil)
			same(t, "Encode", encoded, canonical)
		}
		var typed, again every
		if Unmarshal(block, &typed) == nil {
			encoded, err := Marshal(typed)
			same(t, "Marshal", err, nil)
			same(t, "CheckCanonical", CheckCanonical(encoded), nil)
			same(t, "Unmarshal", Unmarshal(encoded, &again), nil)
			twice, err := Marshal(again)
			same(t, "Marshal", err, nil)
			same(t, "Marshal", twice, encoded)
		}
	})
}

// FuzzCar checks that reading a CAR has the same result if its bytes arrive one at a time, and that
// each block is the bytes of the CAR before the reader's offset.
func FuzzCar(f *testing.F) {
	car := carOf([]Cid{NewCid(Raw, nil)}, []byte("block"), nil)
	for _, seed := range [][]byte{car, car[:70], version2Of(car, 0, ""), version2Of(car, 9, "index")} {
		f.Add(seed)
	}
	f.Fuzz(func(t *testing.T, car []byte) {
		type outcome struct {
			roots, cids []Cid
			blocks      [][]byte
			at          int64
			err         error
		}
		read := func(source io.Reader) (found outcome) {
			r, err := CarOptions{MaxHeader: 1 << 16, MaxSection: 1 << 16}.OpenCar(source)
			if err != nil {
				return outcome{err: err}
			}
			r.Blocks()(func(cid Cid, block []byte) bool {
				found.cids, found.blocks = append(found.cids, cid), append(found.blocks, block)
				if end := int(r.Offset()); !bytes.Equal(car[end-len(block):end], block) {
					t.Errorf("another block before byte %d", end)
				}
				return true
			})
			found.roots, found.at, found.err = r.Roots(), r.Offset(), r.Err()
			return found
		}
		whole := read(bytes.NewReader(car))
		if slowly := read(iotest.OneByteReader(bytes.NewReader(car))); !reflect.DeepEqual(slowly, whole) {
			t.Errorf("by bytes %v, at once %v", slowly, whole)
		}
	})
}

// FuzzUnixFS reads a block as a node, a folder and a file, which have no other blocks. It checks
// that the calls agree.
func FuzzUnixFS(f *testing.F) {
	for _, digits := range []string{
		"0a0408021800", "0a180802120668656c6c6f0a180638a403420708011502000000", "0a0508041201780a", "12060a04015500000a040802" + "2000",
		"12090a04015500001201610a020801", "12090a0401550000120161120a0a0401550000120162620a020801", "0a020805",
		"122d0a24015512205891b5b522d5df086d0ff0b110fbd9d21bb4fc7163af34d08286a2e846f6be0312033741621806122d0a24015512205891" +
			"b5b522d5df086d0ff0b110fbd9d21bb4fc7163af34d08286a2e846f6be03120338356118060a1a0805121120040000000000000000000000000000002822308002",
	} {
		f.Add(unhex(f, digits))
	}
	f.Fuzz(func(t *testing.T, block []byte) {
		cid := NewCid(DagPb, block)
		get := BlockGetter(func(wanted Cid) ([]byte, error) {
			if wanted == cid {
				return block, nil
			}
			return nil, nil
		})
		node, nodeErr := ReadNode(cid, block)
		if folder, err := NewFolderReader(get, cid); err == nil {
			same(t, "ReadNode", nodeErr, nil)
			folder.Entries()(func(entry FolderEntry) bool {
				found, err := get.lookUp(cid, entry.Name)
				same(t, "lookUp", []any{found, err}, []any{entry.Cid, nil})
				return true
			})
			sameBlockAtFault(t, folder.Err(), cid)
			same(t, "Close", folder.Close(), nil)
		}
		r, err := NewFileReader(get, cid)
		if err != nil {
			return
		}
		same(t, "ReadNode", []any{nodeErr, node.Kind == NodeFile || node.Kind == NodeRaw}, []any{nil, true})
		read, err := io.ReadAll(r)
		sameBlockAtFault(t, err, cid)
		if err == nil {
			same(t, "Size", int64(len(read)), r.Size())
		}
		part := make([]byte, len(read))
		_, err = r.ReadAt(part, 0)
		same(t, "ReadAt", []any{err, bytes.Equal(part, read)}, []any{nil, true})
		same(t, "Close", r.Close(), nil)
	})
}

// sameBlockAtFault checks that an error has the CID of a block below the root.
func sameBlockAtFault(t *testing.T, err error, root Cid) {
	var failure *Error
	if err != nil && (!errors.As(err, &failure) || !failure.Cid.Defined() || failure.Cid == root) {
		t.Error(err)
	}
}
