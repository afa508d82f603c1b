package kombilad

import (
	"bytes"
	"encoding/binary"
	"encoding/hex"
	"errors"
	"fmt"
	"io"
	"io/fs"
	"math"
	"runtime"
	"sort"
	"strconv"
	"strings"
	"sync"
	"testing"
	"testing/fstest"
	"testing/iotest"
	"time"
)

// store has the blocks that were put, in their order.
type store struct {
	cids   []Cid
	blocks map[Cid][]byte
}

func newStore() *store {
	return &store{blocks: map[Cid][]byte{}}
}

func (s *store) put(cid Cid, block []byte) error {
	s.cids = append(s.cids, cid)
	s.blocks[cid] = block
	return cid.Verify(block)
}

func (s *store) get(cid Cid) ([]byte, error) {
	return s.blocks[cid], nil
}

func packer(t testing.TB, options PackOptions, put BlockPutter) *Packer {
	p, err := options.NewPacker(put)
	if err != nil {
		t.Fatal(err)
	}
	return p
}

// fileOf packs a file.
func fileOf(t testing.TB, p *Packer, content string) Packed {
	packed, err := p.File(strings.NewReader(content), nil)
	if err != nil {
		t.Fatal(err)
	}
	return packed
}

// folderOf packs a folder.
func folderOf(t testing.TB, p *Packer, entries ...PackedEntry) Packed {
	packed, err := p.Folder(entries, nil)
	if err != nil {
		t.Fatal(err)
	}
	return packed
}

// namesLike returns entries with names like a0, a1 and so on.
func namesLike(count int, name string, of Packed) []PackedEntry {
	entries := make([]PackedEntry, count)
	for at := range entries {
		entries[at] = PackedEntry{name + strconv.Itoa(at), of}
	}
	return entries
}

const (
	emptyFile   = "QmbFMke1KXqnYyBBWxB74N4c5SBnJMVAiMNRcGu6x1AwQH"
	emptyFolder = "QmUNLLsPACCz1vLxQVkXqqLX5R1X345qqfHbsf67hvA3Nn"
	lorem       = "Lorem ipsum dolor sit amet, sit enim montes aliquam. Cras non lorem, rhoncus condimentum, irure et ante. Pulvinar suscipit odio ante, et tellus a enim, wisi ipsum, vel rhoncus eget faucibus varius, luctus turpis nibh vel odio nulla pede."
)

// The CIDs of version 0, and of raw leaves, are those of ipfs add. The writer of UnixFS in
// tests/ipld has computed the others.
func TestRootsOfFiles(t *testing.T) {
	mode := &Attributes{Mode: 0o644, HasMode: true}
	both := &Attributes{0o644, true, time.Unix(1_700_000_000, 123), true}
	before := &Attributes{0o644, true, time.Unix(-2, 1_000_000_000), true} // -1 seconds
	raw := PackOptions{Version: 1, RawLeaves: true}
	for _, row := range []struct {
		content    string
		options    PackOptions
		attributes *Attributes
		root       string
	}{
		{"", PackOptions{}, nil, emptyFile},
		{"hello world", PackOptions{}, nil, "Qmf412jQZiuVUtdgnB36FXFX7xg5V6KEbSJ4dpQuhkLyfD"},
		{"foobar\n", PackOptions{}, nil, "QmRgutAxd8t7oGkSm4wmeuByG6M51wcTso6cubDdQtuEfL"},
		{"foobar\n", PackOptions{ChunkSize: 7}, nil, "QmRgutAxd8t7oGkSm4wmeuByG6M51wcTso6cubDdQtuEfL"},
		{"foobar\n", PackOptions{ChunkSize: 2}, nil, "QmRJHYTNvC3hmd9gJQARxLR1QMEincccBV53bBw524yyq6"},
		{lorem, PackOptions{ChunkSize: 1}, nil, "QmRQ6NZNUs4JrCT2y7tmCC1wUhjqYuTssB8VXbbN3rMffg"},
		{lorem, PackOptions{ChunkSize: 32}, nil, "QmYSLcVQqxKygiq7x9w1XGYxU29EShB8ZemiaQ8GAAw17h"},
		{string(make([]byte, 349)), PackOptions{ChunkSize: 2}, nil, "QmcHNWF1d56uCDSfJPA7t9fadZRV9we5HGSTGSmwuqmMP9"},
		{string(make([]byte, 174)), PackOptions{ChunkSize: 1}, nil, "QmdgQac8c6Bo3MP5bHAg2yQ25KebFUsmkZFvyByYzf8UCB"},
		{"", raw, nil, "bafkreihdwdcefgh4dqkjv67uzcmw7ojee6xedzdetojuzjevtenxquvyku"},
		{"hello world", raw, nil, "bafkreifzjut3te2nhyekklss27nh3k72ysco7y32koao5eei66wof36n5e"},
		{"12345678", PackOptions{1, true, 1, 2, 0, false}, nil, "bafybeiggrspbevbe63o3hasedsmqmkc6zf7o5oz4467rvm54sk2v4ajode"},
		{"123456789", PackOptions{1, true, 1, 2, 0, false}, nil, "bafybeifp4suip7m3csqminzfsyg4a6meztrrzkliqpdpr3jzsmx2evsgna"},
		{"1234567890", PackOptions{1, false, 1, 3, 0, false}, nil, "bafybeig4z3o5zuupkrmstafwzzhrvn2llsovt2nxoeksulazmn7hf55wry"},
		{"foobar\n", PackOptions{RawLeaves: true, ChunkSize: 2}, nil, "QmP1h7NSAhBDW2moahZxX5TMy7oVpqAxrLjxXhxwQk5EXU"},
		{"foobar\n", PackOptions{ChunkSize: 2}, both, "QmRid8hfWKA9ktQLuS69EXzdddMxvhti5krCbRKpJdXpuA"},
		{"foobar\n", PackOptions{}, before, "QmWEGtJK5wgBGahJG3UCgXksLJDNtC8uSADfYmugtNdsSV"},
		{"foobar\n", raw, mode, "bafybeih7opfpjeeprz6heblkylou64ygy3ks33l7hfzy6rql4zdhnqc4di"},
	} {
		blocks := newStore()
		p := packer(t, row.options, blocks.put)
		for name, source := range map[string]io.Reader{
			"whole":         strings.NewReader(row.content),
			"by halves":     iotest.HalfReader(strings.NewReader(row.content)),
			"by bytes":      iotest.OneByteReader(strings.NewReader(row.content)),
			"with the end":  iotest.DataErrReader(strings.NewReader(row.content)),
			"by odd pieces": &oddPieces{content: row.content},
		} {
			blocks.cids = nil
			packed, err := p.File(source, row.attributes)
			same(t, name, []any{packed.Cid.String(), packed.Size, err}, []any{row.root, uint64(len(row.content)), nil})
			same(t, "the last block", blocks.cids[len(blocks.cids)-1], packed.Cid)
		}
		read, err := io.ReadAll(newFile(t, blocks.get, cidOfText(t, row.root)))
		same(t, "Read", []any{string(read), err}, []any{row.content, nil})
		node, err := ReadNode(cidOfText(t, row.root), blocks.blocks[cidOfText(t, row.root)])
		same(t, "ReadNode", err, nil)
		if row.attributes != nil {
			of := *row.attributes
			of.ModTime = of.ModTime.UTC()
			same(t, "ReadNode", Attributes{node.Mode, node.HasMode, node.ModTime, node.HasModTime}, of)
		}
	}
}

// oddPieces is a reader that returns 0 to 6 bytes at a time.
type oddPieces struct {
	content string
	turn    int
}

func (o *oddPieces) Read(to []byte) (int, error) {
	if o.content == "" {
		return 0, io.EOF
	}
	o.turn++
	count := copy(to, o.content[:min(o.turn*5%7, len(o.content))])
	o.content = o.content[count:]
	return count, nil
}

func TestLargeFiles(t *testing.T) {
	content := make([]byte, 70_000)
	for at := range content {
		content[at] = byte(at * at >> 5)
	}
	zeros := make([]byte, len(content))
	// The writer of UnixFS in tests/ipld has computed the CIDs.
	for _, row := range []struct {
		content []byte
		options PackOptions
		root    string
		total   uint64
		blocks  int
	}{
		{zeros, PackOptions{ChunkSize: 1}, "QmX43vrW8tYsrsAGraYfN5HN9c8qk9f4jnEdvzvVrhY7qx", 3_731_936, 70_407},
		{content, PackOptions{ChunkSize: 16, MaxLinks: 3}, "QmdkxViuvUc3NDYNvqLswvwKSFWbw8UKB484ENonv8Ndds", 410_835, 6_569},
		{content, PackOptions{1, true, 16, 3, 0, false}, "bafybeihrvpi2yvdmon2ldpbznmqp4ycrdfcjd27xsk3ipfpnqhxwnlwigi", 388_971, 6_569},
	} {
		blocks := newStore()
		packed, err := packer(t, row.options, blocks.put).File(bytes.NewReader(row.content), nil)
		same(t, "File", []any{packed.Cid.String(), packed.Size, packed.Total, len(blocks.cids), err}, []any{row.root, uint64(70_000), row.total, row.blocks, nil})
		read, err := io.ReadAll(newFile(t, blocks.get, packed.Cid))
		same(t, "Read", []any{bytes.Equal(read, row.content), err}, []any{true, nil})
	}
}

func TestRootsOfLinksAndFolders(t *testing.T) {
	blocks := newStore()
	p := NewPacker(blocks.put)
	for target, root := range map[string]string{
		"b": "QmfLJN6HLyREnWr7QQNmgmuNziUhcbwUopkHQ8gD3pMfp6", "foobar": "QmNgQEdXVdLw79nH2bnxLMxnyWMaXrijfqMTiDVat3iyuz",
	} {
		packed, err := p.Symlink(target, nil)
		same(t, target, []any{packed.Cid.String(), packed.Size, err}, []any{root, uint64(0), nil})
		node, err := ReadNode(packed.Cid, blocks.blocks[packed.Cid])
		same(t, target, []any{node, err}, []any{Node{Kind: NodeSymlink, Target: target}, nil})
	}
	same(t, "an empty folder", folderOf(t, p).Cid.String(), emptyFolder)
	link, err := p.Symlink("b", nil)
	same(t, "Symlink", err, nil)
	inside := folderOf(t, p, PackedEntry{"car", fileOf(t, p, "car\n")})
	root := folderOf(t, p, PackedEntry{"b", inside}, PackedEntry{"a", link})
	same(t, "a folder", []any{root.Cid.String(), root.Size, root.Total}, []any{"QmZDVQHwjHwA4SyzEDtJLNxmZeJVK1W8BWFAHV61x2Rs19", uint64(0), uint64(158)})

	first := packer(t, PackOptions{Version: 1}, blocks.put)
	same(t, "version 1", folderOf(t, first).Cid.String(), "bafybeiczsscdsbs7ffqz55asqdf3smv6klcw3gofszvwlyarci47bgf354")
	packed, err := first.Folder(nil, &Attributes{Mode: 0o755, HasMode: true})
	same(t, "a mode", []any{packed.Cid.String(), err}, []any{"bafybeibvjvylaiqr3dng5lcgfi4efjxiytcoodswp2m3dx5oyludj4orda", nil})
	packed, err = first.Symlink("foobar", nil)
	same(t, "version 1", []any{packed.Cid.String(), err}, []any{"bafybeiafb5ac2gbschcrzuqj3ewdam5vbqs7xtzbpgow5mkab7s5ilzxre", nil})
}

func TestRootsOfShardedFolders(t *testing.T) {
	entries := []PackedEntry{}
	blocks := newStore()
	for _, number := range strings.Fields("016 037 058 009 038 050 049 004 025 034 041 033 017 040 003 048") {
		entries = append(entries, PackedEntry{"long-named-file-" + number, fileOf(t, NewPacker(blocks.put), "")})
	}
	unsorted := append([]PackedEntry{}, entries...)
	// The names and the CIDs have 848 bytes.
	for above, count := range map[int64]int{0: 1, 848: 1, 847: 9, -1: 9} {
		blocks.cids = nil
		packed := folderOf(t, packer(t, PackOptions{ShardedAbove: above}, blocks.put), entries...)
		same(t, "the first block", []any{len(blocks.cids), blocks.cids[0]}, []any{count, packed.Cid})
		if count > 1 {
			same(t, "sharded", packed.Cid.String(), "QmZbFPTnDBMWbQ6iBxQAhuhLz8Nu9XptYS96e7cuf5wvbk")
		}
		list, err := newFS(t, blocks.get, packed.Cid).ReadDir(".")
		same(t, "ReadDir", []any{len(list), list[0].Name(), err}, []any{16, "long-named-file-003", nil})
	}
	same(t, "the entries", entries, unsorted)
	sharded := packer(t, PackOptions{ShardedAbove: -1}, blocks.put)
	same(t, "an empty folder", folderOf(t, sharded).Cid.String(), emptyFolder)
	plain := NewPacker(blocks.put)
	inside := folderOf(t, plain, PackedEntry{"foobar", fileOf(t, plain, "foobar\n")})
	root := folderOf(t, sharded, PackedEntry{"non_sharded_dir", inside})
	same(t, "one entry", root.Cid.String(), "QmQXUANxYGpkwMTWQUdZBPx9jqfFP7acNgL4FHRWkndKCe")

	// The writer of UnixFS in tests/ipld has computed the CID.
	blocks = newStore()
	large := packer(t, PackOptions{Version: 1, RawLeaves: true}, blocks.put)
	entries = namesLike(66_000, "", fileOf(t, large, ""))
	blocks.cids = nil
	root = folderOf(t, large, entries...)
	same(t, "66,000 entries", []any{root.Cid.String(), root.Total, len(blocks.cids)}, []any{"bafybeicktjel3s7kvihb6edwhghtg2jp7g6td4nst7i6fgw42rywp32bn4", uint64(4_790_160), 17_781})
	folder, err := NewFolderReader(blocks.get, root.Cid)
	same(t, "NewFolderReader", err, nil)
	names := map[string]bool{}
	folder.Entries()(func(entry FolderEntry) bool {
		names[entry.Name] = true
		return entry.Cid == entries[0].Cid && entry.Tsize == 0
	})
	same(t, "Entries", []any{len(names), folder.Err()}, []any{66_000, nil})
}

// packRow is a file, a folder or a link that test/cases.py has packed.
type packRow struct {
	Kind, Cid, Content, Target string
	Mode                       *uint32
	Time                       []int64
	Size, Total                uint64
	Entries                    map[string]packRow
}

// checkPackCase packs a folder and all that is below it, and reads it.
func checkPackCase(t *testing.T, it randomCase, _ []byte, _ Status) {
	options := PackOptions{it.Version, it.RawLeaves, it.Chunk, it.Width, it.Above, false}
	blocks := newStore()
	root := packRowOf(t, packer(t, options, blocks.put), it.Pack)
	checkPacked(t, newFS(t, blocks.get, root.Cid), ".", it.Pack)
}

func packRowOf(t *testing.T, p *Packer, row packRow) (packed Packed) {
	var attributes *Attributes
	if row.Mode != nil || row.Time != nil {
		attributes = &Attributes{HasMode: row.Mode != nil, HasModTime: row.Time != nil}
		if row.Mode != nil {
			attributes.Mode = *row.Mode
		}
		if row.Time != nil {
			attributes.ModTime = time.Unix(row.Time[0], append(row.Time, 0)[1])
		}
	}
	var err error
	switch row.Kind {
	case "file":
		packed, err = p.File(bytes.NewReader(unhex(t, row.Content)), attributes)
	case "link":
		packed, err = p.Symlink(row.Target, attributes)
	default:
		entries := []PackedEntry{}
		for name, below := range row.Entries {
			entries = append(entries, PackedEntry{name, packRowOf(t, p, below)})
		}
		packed, err = p.Folder(entries, attributes)
	}
	same(t, row.Kind, []any{hex.EncodeToString(packed.Cid.Bytes()), packed.Size, packed.Total, err}, []any{row.Cid, row.Size, row.Total, nil})
	return packed
}

func checkPacked(t *testing.T, fsys *FS, path string, row packRow) {
	switch row.Kind {
	case "file":
		read, err := fs.ReadFile(fsys, path)
		same(t, path, []any{hex.EncodeToString(read), err}, []any{row.Content, nil})
	case "link":
		target, err := fsys.ReadLink(path)
		same(t, path, []any{target, err}, []any{row.Target, nil})
	default:
		list, err := fsys.ReadDir(path)
		same(t, path, []any{len(list), err}, []any{len(row.Entries), nil})
		for _, entry := range list {
			below, isKnown := row.Entries[entry.Name()]
			same(t, entry.Name(), isKnown, true)
			checkPacked(t, fsys, strings.TrimPrefix(path+"/"+entry.Name(), "./"), below)
		}
	}
}

func TestOptionsOfAPacker(t *testing.T) {
	put := newStore().put
	for status, rows := range map[Status][]PackOptions{
		0:                    {{}, {ChunkSize: 1}, {ChunkSize: maxChunk}, {MaxLinks: 2}, {MaxLinks: math.MaxInt, ShardedAbove: math.MaxInt64}},
		ErrCidUnknownVersion: {{Version: 2}, {Version: -1}, {Version: 1 << 32}},
		ErrRange:             {{ChunkSize: -1}, {ChunkSize: maxChunk + 1}, {ChunkSize: math.MinInt}},
		ErrPackWidth:         {{MaxLinks: 1}, {MaxLinks: -1}, {MaxLinks: math.MinInt}},
	} {
		for _, options := range rows {
			p, err := options.NewPacker(put)
			sameError(t, fmt.Sprint(options), err, status, -1)
			same(t, fmt.Sprint(options), p == nil, status != 0)
			if p != nil {
				same(t, fmt.Sprint(options), fileOf(t, p, "").Cid.String(), emptyFile)
			}
		}
	}
	_, err := PackOptions{ChunkSize: -1}.NewPacker(put)
	same(t, "text", err.Error(), "kombilad: the size of a chunk must be from 1 to 67,108,864 bytes")
}

func TestErrorsOfPackedFolders(t *testing.T) {
	blocks := newStore()
	p := NewPacker(blocks.put)
	file := fileOf(t, p, "x")
	for _, row := range []struct {
		name, text string
		status     Status
	}{
		{"", `[""]: the name of an entry is empty, . or .., or has a / or a zero byte`, ErrPackInvalidName},
		{".", `["."]: the name of an entry is empty, . or .., or has a / or a zero byte`, ErrPackInvalidName},
		{"..", `[".."]: the name of an entry is empty, . or .., or has a / or a zero byte`, ErrPackInvalidName},
		{"b/c", `["b/c"]: the name of an entry is empty, . or .., or has a / or a zero byte`, ErrPackInvalidName},
		{"b\x00", `["b\x00"]: the name of an entry is empty, . or .., or has a / or a zero byte`, ErrPackInvalidName},
		{"b\xff", `["b\xff"]: the text is not UTF-8`, ErrTextUTF8},
		{"z", `z: two entries of the folder have this name`, ErrPackNameOrder},
	} {
		for _, options := range []PackOptions{{}, {ShardedAbove: -1}} {
			entries := []PackedEntry{{"z", file}, {"a", file}, {row.name, file}}
			packed, err := packer(t, options, blocks.put).Folder(entries, nil)
			sameError(t, row.name, err, row.status, -1)
			same(t, row.name, []any{err.Error(), packed}, []any{"kombilad: " + row.text, Packed{}})
		}
	}
	_, err := p.Folder([]PackedEntry{{"b", Packed{}}, {"a", file}}, nil)
	sameError(t, "an undefined CID", err, ErrCidEnd, -1)
	var failure *Error
	same(t, "an undefined CID", errors.As(err, &failure) && failure.Path == "b", true)
	file.Total = math.MaxUint64
	_, err = p.Folder([]PackedEntry{{"a", file}}, nil)
	sameError(t, "2^64 bytes", err, ErrPackTooLarge, -1)
	_, err = p.Symlink("\xff", nil)
	sameError(t, "a target", err, ErrTextUTF8, -1)
	same(t, "blocks", len(blocks.cids), 1)
}

// TestPutAndSourceMayFail has each block and each read fail once. The packer can be used afterwards.
func TestPutAndSourceMayFail(t *testing.T) {
	broken := errors.New("broken")
	fails := -1
	blocks := newStore()
	p := packer(t, PackOptions{ChunkSize: 16, MaxLinks: 2, ShardedAbove: -1}, func(cid Cid, block []byte) error {
		if fails--; fails == -1 {
			return broken
		}
		return blocks.put(cid, block)
	})
	entries := namesLike(300, "", fileOf(t, p, ""))
	for name, pack := range map[string]func() (Packed, error){
		"File":    func() (Packed, error) { return p.File(strings.NewReader(lorem), nil) },
		"Symlink": func() (Packed, error) { return p.Symlink("b", nil) },
		"Folder":  func() (Packed, error) { return p.Folder(entries, nil) },
		"AddFS":   func() (Packed, error) { return p.AddFS(fstest.MapFS{"a/b": {Data: []byte(lorem)}}) },
	} {
		fails, blocks.cids = -1, nil
		wanted, err := pack()
		same(t, name, err, nil)
		count := len(blocks.cids)
		for at := 0; at < count; at++ {
			fails = at
			packed, err := pack()
			same(t, name, []any{packed, err}, []any{Packed{}, broken})
		}
		fails = count
		packed, err := pack()
		same(t, name, []any{packed, err, fails}, []any{wanted, nil, 0})
	}
	fails = -1
	for cut := range lorem {
		source := io.MultiReader(strings.NewReader(lorem[:cut]), iotest.ErrReader(broken))
		packed, err := p.File(iotest.DataErrReader(source), nil)
		same(t, "File", []any{packed, err}, []any{Packed{}, broken})
	}
	again := packer(t, PackOptions{ChunkSize: 32}, blocks.put)
	same(t, "File", fileOf(t, again, lorem).Cid.String(), "QmYSLcVQqxKygiq7x9w1XGYxU29EShB8ZemiaQ8GAAw17h")
}

func TestABlockPutterThatCallsBack(t *testing.T) {
	var p *Packer
	var call func()
	p = NewPacker(func(Cid, []byte) error {
		if use := call; use != nil {
			call = nil
			use()
		}
		return nil
	})
	call = func() { same(t, "inside", folderOf(t, p).Cid.String(), emptyFolder) }
	same(t, "outside", []any{fileOf(t, p, "").Cid.String(), call == nil}, []any{emptyFile, true})
	call = func() { panic("put") }
	func() {
		defer func() { same(t, "a panic", recover(), "put") }()
		_, _ = p.File(strings.NewReader(""), nil)
	}()
	func() {
		defer func() { same(t, "a panic", recover() != nil, true) }()
		_, _ = p.File(nil, nil)
	}()
	same(t, "after a panic", fileOf(t, p, "").Cid.String(), emptyFile)
}

// The writer of UnixFS in tests/ipld has computed the CIDs.
func TestAddFS(t *testing.T) {
	files := fstest.MapFS{
		"docs/hello.txt": {Data: []byte("hello\n")}, "docs/empty": {}, "a b": {Data: []byte("x")}, "none": {Mode: fs.ModeDir},
	}
	for _, row := range []struct {
		options PackOptions
		root    string
		total   uint64
	}{
		{PackOptions{}, "QmXh4D4Qf6J3XXrnpoHvsbHS4ZDH51Gr9egccfdujyWrJz", 276},
		{PackOptions{Version: 1, RawLeaves: true}, "bafybeictqdhuink7wsthbrgh26qefjpib7ozkaxeyouas67wavyptbhzq4", 264},
	} {
		blocks := newStore()
		p := packer(t, row.options, blocks.put)
		packed, err := p.AddFS(files)
		same(t, "AddFS", []any{packed.Cid.String(), packed.Total, err}, []any{row.root, row.total, nil})
		fsys := newFS(t, blocks.get, packed.Cid)
		same(t, "TestFS", fstest.TestFS(fsys, "docs/hello.txt", "docs/empty", "a b", "none"), nil)
		again, err := p.AddFS(fsys)
		same(t, "an FS", []any{again, err}, []any{packed, nil})
	}

	// Permissions, times and links.
	blocks := newStore()
	p := packer(t, PackOptions{Preserve: true}, blocks.put)
	packed := func(packed Packed, err error) Packed {
		same(t, "packed", err, nil)
		return packed
	}
	hello := packed(p.File(strings.NewReader("hello\n"), &Attributes{0o640, true, time.Unix(1_700_000_000, 5), true}))
	docs := folderOf(t, p, PackedEntry{"hello.txt", hello}, PackedEntry{"empty", fileOf(t, p, "")})
	link := packed(p.Symlink("docs/empty", nil))
	root := packed(p.Folder([]PackedEntry{{"docs", docs}, {"link", link}}, &Attributes{Mode: 0o700, HasMode: true}))
	fsys := newFS(t, blocks.get, root.Cid)
	same(t, "Preserve", packed(p.AddFS(fsys)).Cid.String(), "QmQC1xfUDwyS3hA4kvbrBvkmfam7opFqD9iRon4SnupWU4")

	_, err := p.AddFS(struct{ fs.FS }{fsys})
	samePathError(t, "no ReadLink", err, "pack", "link", ErrFileNotFile)
	same(t, "no ReadLink", err.Error(), "pack link: kombilad: only files, folders and symbolic links can be packed, and links only with ReadLink")
	_, err = p.AddFS(fstest.MapFS{"a/device": {Mode: fs.ModeDevice}})
	samePathError(t, "a device", err, "pack", "a/device", ErrFileNotFile)
	_, err = p.AddFS(fstest.MapFS{"a/b c/d\x00": {}})
	sameError(t, "a name", err, ErrPackInvalidName, -1)
	same(t, "a name", strings.HasPrefix(err.Error(), `kombilad: a["b c"]["d\x00"]: the name of an entry`), true)
	other := folderOf(t, NewPacker(blocks.put), PackedEntry{"link", Packed{Cid: NewCid(DagPb, unhex(t, "0a0508041201ff"))}})
	blocks.blocks[NewCid(DagPb, unhex(t, "0a0508041201ff"))] = unhex(t, "0a0508041201ff")
	_, err = p.AddFS(newFS(t, blocks.get, other.Cid))
	sameError(t, "a target", err, ErrTextUTF8, -1)
	same(t, "a target", err.Error(), "kombilad: link: the text is not UTF-8")
	delete(blocks.blocks, hello.Cid)
	_, err = p.AddFS(fsys)
	samePathError(t, "a missing block", err, "readdir", "docs", ErrMissingBlock)
}

func TestPackingTakesNoMemory(t *testing.T) {
	p := NewPacker(func(Cid, []byte) error { return nil })
	pack := func(count int) uint64 {
		return allocated(func() {
			for at := 0; at < count; at++ {
				fileOf(t, p, "hello world")
			}
		})
	}
	if took := pack(1000); took > 1000*8192 { // a chunk has 262,144
		t.Errorf("1,000 small files take %d bytes", took)
	}
	// Of a long file, each chunk takes its block, and nothing is kept.
	most, before := uint64(0), heap()
	p = NewPacker(func(Cid, []byte) error {
		if most < heap() {
			most = heap()
		}
		return nil
	})
	packed, err := p.File(io.LimitReader(zeros{}, 16<<20+1), nil)
	same(t, "File", []any{packed.Size, err}, []any{uint64(16<<20 + 1), nil})
	if most > before+3<<20 {
		t.Errorf("a file of 16 MiB takes %d bytes at once", most-before)
	}
}

// heap returns the number of bytes in use after a collection.
func heap() uint64 {
	runtime.GC()
	var now runtime.MemStats
	runtime.ReadMemStats(&now)
	return now.HeapAlloc
}

// zeros is a reader of zeros without end.
type zeros struct{}

func (zeros) Read(to []byte) (int, error) {
	for at := range to {
		to[at] = 0
	}
	return len(to), nil
}

func TestGoroutinesUseAPackerAtOnce(t *testing.T) {
	p := packer(t, PackOptions{ChunkSize: 32}, func(cid Cid, block []byte) error { return cid.Verify(block) })
	var all sync.WaitGroup
	for worker := 0; worker < 8; worker++ {
		all.Add(1)
		go func() {
			defer all.Done()
			for turn := 0; turn < 50; turn++ {
				packed, err := p.File(strings.NewReader(lorem), nil)
				same(t, "File", []any{packed.Cid.String(), err}, []any{"QmYSLcVQqxKygiq7x9w1XGYxU29EShB8ZemiaQ8GAAw17h", nil})
				packed, err = p.Folder(namesLike(turn, "a", packed), nil)
				same(t, "Folder", []any{packed.Cid.Defined(), err}, []any{true, nil})
			}
		}()
	}
	all.Wait()
}

// writes is a writer that keeps the bytes of each call. Its calls fail once there are so many.
type writes struct {
	calls [][]byte
	most  int
	err   error
}

func (w *writes) Write(from []byte) (int, error) {
	if len(w.calls) == w.most {
		return len(from) / 2, w.err
	}
	w.calls = append(w.calls, append([]byte{}, from...))
	return len(from), nil
}

func TestCarWriter(t *testing.T) {
	blocks := [][]byte{[]byte("block"), nil, make([]byte, 300), make([]byte, 70_000)}
	many := make([]Cid, 70_000)
	for at := range many {
		many[at] = NewCid(DagCbor, []byte{byte(at), byte(at >> 8), byte(at >> 16)})
	}
	for _, roots := range [][]Cid{nil, {cidOfText(t, version0), cidOfText(t, "bafkqaaa")}, many} {
		out := &writes{most: -1}
		w, err := NewCarWriter(out, roots)
		same(t, "NewCarWriter", []any{len(out.calls), err}, []any{1, nil})
		wanted := carOf(roots, blocks...)
		for _, block := range blocks {
			same(t, "Write", w.Write(NewCid(Raw, block), block), nil)
			written := bytes.Join(out.calls, nil)
			same(t, "Write", bytes.HasPrefix(wanted, written) && bytes.HasSuffix(written, block), true)
		}
		same(t, "Write", bytes.Equal(bytes.Join(out.calls, nil), wanted), true)
		same(t, "calls", len(out.calls), 1+2*len(blocks)-1) // one block is empty
		// CIDs that aren't of 36 bytes.
		same(t, "Write", w.Write(cidOfText(t, "bafkqaaa"), nil), nil)
		same(t, "Write", out.calls[len(out.calls)-1], framed(cidOfText(t, "bafkqaaa").Bytes()))
		r, err := OpenCar(bytes.NewReader(bytes.Join(out.calls, nil)))
		same(t, "OpenCar", err, nil)
		same(t, "Roots", append([]Cid{}, r.Roots()...), append([]Cid{}, roots...))
		count := 0
		r.Blocks()(func(Cid, []byte) bool { count++; return true })
		same(t, "Blocks", []any{count, r.Err()}, []any{len(blocks) + 1, nil})
	}
}

func TestCarWriterErrors(t *testing.T) {
	broken := errors.New("broken")
	cid := NewCid(Raw, []byte("block"))
	_, err := NewCarWriter(&writes{most: -1}, []Cid{cid, {}})
	sameError(t, "an undefined root", err, ErrCidEnd, -1)
	same(t, "an undefined root", strings.HasPrefix(err.Error(), "kombilad: roots[1]: "), true)
	for _, wanted := range []error{broken, nil} {
		for most := 0; most < 5; most++ {
			out := &writes{most: most, err: wanted}
			w, err := NewCarWriter(out, []Cid{cid})
			if most > 0 {
				same(t, "NewCarWriter", err, nil)
				sameError(t, "an undefined CID", w.Write(Cid{}, nil), ErrCidEnd, -1)
				for at := 0; err == nil && at < 3; at++ {
					err = w.Write(cid, []byte("block"))
				}
				out.most = -1
				same(t, "Write", w.Write(cid, nil), err)
			}
			reason := map[bool]error{true: broken, false: io.ErrShortWrite}[wanted != nil]
			same(t, "Write", []any{errors.Is(err, reason), err.Error(), len(out.calls)}, []any{true, "kombilad: cannot write the CAR: " + reason.Error(), most})
		}
	}
	// A packer writes to a CAR, and returns its error unchanged.
	out := &writes{most: 4, err: broken}
	w, err := NewCarWriter(out, nil)
	same(t, "NewCarWriter", err, nil)
	p := packer(t, PackOptions{ChunkSize: 32}, w.Write)
	_, err = p.File(strings.NewReader(lorem), nil)
	same(t, "File", err, w.Write(cid, nil))
	same(t, "File", errors.Is(err, broken), true)
}

// memoryFile is a file in memory, of which the calls fail after so many, if that is not 0.
type memoryFile struct {
	data  []byte
	at    int
	calls int
	most  int
}

var errMemoryFile = errors.New("broken")

func (f *memoryFile) called() error {
	f.calls++
	if f.most > 0 && f.calls > f.most {
		return errMemoryFile
	}
	return nil
}

func (f *memoryFile) Write(from []byte) (int, error) {
	if err := f.called(); err != nil {
		return 0, err
	}
	for len(f.data) < f.at+len(from) {
		f.data = append(f.data, 0)
	}
	f.at += copy(f.data[f.at:], from)
	return len(from), nil
}

func (f *memoryFile) Seek(offset int64, whence int) (int64, error) {
	if err := f.called(); err != nil {
		return 0, err
	}
	if whence == io.SeekCurrent {
		offset += int64(f.at)
	}
	f.at = int(offset)
	return offset, nil
}

// indexOf returns an index of blocks with SHA2-256, whose sections have these offsets.
func indexOf(cids []Cid, offsets []int) []byte {
	rows := make([]string, len(cids))
	for at, cid := range cids {
		rows[at] = string(cid.Digest()) + string(binary.LittleEndian.AppendUint64(nil, uint64(offsets[at])))
	}
	sort.Strings(rows)
	index := append([]byte{0x81, 8}, 1, 0, 0, 0)
	index = append(index, 0x12, 0, 0, 0, 0, 0, 0, 0, 1, 0, 0, 0, 40, 0, 0, 0)
	index = binary.LittleEndian.AppendUint64(index, uint64(40*len(rows)))
	return append(index, strings.Join(rows, "")...)
}

func TestIndexedCarWriter(t *testing.T) {
	for _, count := range []int{1, 2, 300, 70_000} {
		roots := []Cid{cidOfText(t, version0), cidOfText(t, "bafkqaaa")}
		file := &memoryFile{data: []byte("before"), at: 6}
		w, err := NewIndexedCarWriter(file, roots)
		same(t, "NewIndexedCarWriter", err, nil)
		payload := carOf(roots)
		cids, offsets := make([]Cid, count), make([]int, count)
		for at := range cids {
			block := []byte{byte(at), byte(at >> 8), byte(at >> 16)}
			cids[at], offsets[at] = NewCid(Raw, block), len(payload)
			payload = append(payload, framed(append(cids[at].Bytes(), block...))...)
			same(t, "Write", w.Write(cids[at], block), nil)
		}
		same(t, "no CAR yet", bytes.Equal(file.data[6:57], make([]byte, 51)), true)
		same(t, "Close", []any{w.Close(), w.Close()}, []any{nil, nil})
		same(t, "Write", errors.Is(w.Write(cids[0], nil), fs.ErrClosed), true)
		same(t, "the file's position", file.at, len(file.data))
		wanted := append([]byte("before\x0a\xa1\x67version\x02\x80"), make([]byte, 15)...)
		for _, number := range []int{51, len(payload), 51 + len(payload)} {
			wanted = binary.LittleEndian.AppendUint64(wanted, uint64(number))
		}
		wanted = append(append(wanted, payload...), indexOf(cids, offsets)...)
		same(t, "the CAR", bytes.Equal(file.data, wanted), true)
		r, err := OpenCar(bytes.NewReader(file.data[6:]))
		same(t, "OpenCar", err, nil)
		found := 0
		r.Blocks()(func(Cid, []byte) bool { found++; return true })
		same(t, "Blocks", []any{found, r.Err()}, []any{count, nil})
	}
}

func TestIndexedCarWriterErrors(t *testing.T) {
	cid := NewCid(Raw, []byte("block"))
	_, err := NewIndexedCarWriter(&memoryFile{}, []Cid{cid, {}})
	sameError(t, "an undefined root", err, ErrCidEnd, -1)
	// Two calls for the header and its place, two for a block, and four for the end.
	for most := 1; most < 9; most++ {
		file := &memoryFile{most: most}
		w, err := NewIndexedCarWriter(file, []Cid{cid})
		if err == nil {
			sameError(t, "an undefined CID", w.Write(Cid{}, nil), ErrCidEnd, -1)
			err = w.Write(cid, []byte("block"))
			if err == nil {
				err = w.Close()
			}
			file.most = 0
			same(t, "Write", w.Write(cid, nil), err)
			same(t, "Close", w.Close(), err)
		}
		same(t, "an error of the file", []any{errors.Is(err, errMemoryFile), err.Error()}, []any{true, "kombilad: cannot write the CAR: broken"})
	}
}

func TestPackedFoldersAreSorted(t *testing.T) {
	blocks := newStore()
	p := NewPacker(blocks.put)
	names := []string{"z", "é", "Z", "a b", "\U0001f4c1", "\ufeff", "a", "aa", "a.b", "%2F"}
	entries := []PackedEntry{}
	for _, name := range names {
		entries = append(entries, PackedEntry{name, fileOf(t, p, name)})
	}
	root := folderOf(t, p, entries...)
	folder, err := NewFolderReader(blocks.get, root.Cid)
	same(t, "NewFolderReader", err, nil)
	found := []string{}
	folder.Entries()(func(entry FolderEntry) bool {
		found = append(found, entry.Name)
		read, err := fs.ReadFile(newFS(t, blocks.get, root.Cid), entry.Name)
		same(t, "ReadFile", []any{string(read), err}, []any{entry.Name, nil})
		return true
	})
	sort.Strings(names)
	same(t, "names", found, names)
}
