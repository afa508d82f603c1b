package kombilad_test

import (
	"bytes"
	"encoding/hex"
	"errors"
	"fmt"
	"io"
	"io/fs"
	"log"
	"strings"
	"testing/fstest"

	"example.org/kombilad"
)

func Example() {
	type Post struct {
		Text  string        `ipld:"text"`
		Reply *kombilad.Cid `ipld:"reply,omitempty"`
	}
	reply, err := kombilad.ParseCid("bafkqaaa")
	if err != nil {
		log.Fatal(err)
	}
	block, err := kombilad.Marshal(Post{Text: "hi", Reply: &reply})
	if err != nil {
		log.Fatal(err)
	}
	fmt.Println(kombilad.NewCid(kombilad.DagCbor, block))

	var post Post
	if err := kombilad.Unmarshal(block, &post); err != nil {
		log.Fatal(err)
	}
	fmt.Println(post.Text, post.Reply)
	// Output:
	// bafyreig55rz6x6cwloqorpyh3ylr2yq73qq3mhjq7jjw3eniwnw2n5l76m
	// hi bafkqaaa
}

func ExampleParseCid() {
	cid, err := kombilad.ParseCid("/ipfs/QmdfTbBqBPQ7VNxZEYEj14VmRuZBkqFbiwReogJgS1zR1n")
	if err != nil {
		log.Fatal(err)
	}
	fmt.Println(cid.Version(), cid.Codec() == kombilad.DagPb, len(cid.Digest()))
	_, err = kombilad.ParseCid("bafkqaa1")
	fmt.Println(err)
	// Output:
	// 0 true 32
	// kombilad: a character is not a letter of the base, at byte 7
}

func ExampleCid_Verify() {
	cid := kombilad.NewCid(kombilad.Raw, []byte("hello"))
	fmt.Println(cid.Verify([]byte("hello")))
	fmt.Println(errors.Is(cid.Verify([]byte("jello")), kombilad.ErrWrongDigest))
	// Output:
	// <nil>
	// true
}

func ExampleDecode() {
	block, _ := hex.DecodeString("a2616101616cd82a450001550000")
	value, err := kombilad.Decode(block)
	fmt.Println(value, err)
	// Output: map[a:1 l:bafkqaaa] <nil>
}

func ExampleEncode() {
	block, err := kombilad.Encode(map[string]any{"bb": 1, "a": []any{nil, 1.5}})
	fmt.Printf("%x %v\n", block, err)
	// Output: a2616182f6fb3ff800000000000062626201 <nil>
}

func ExampleUnmarshal_error() {
	block, _ := kombilad.Encode(map[string]any{"ages": []any{7, 65536}})
	var value struct {
		Ages []uint16 `ipld:"ages"`
	}
	err := kombilad.Unmarshal(block, &value)
	fmt.Println(err)

	var failure *kombilad.Error
	if errors.As(err, &failure) {
		fmt.Println(failure.Path, failure.Type, failure.Status == kombilad.ErrRange)
	}
	// Output:
	// kombilad: ages[1]: the integer 65536 is out of range for the Go type uint16
	// ages[1] uint16 true
}

func ExampleOptions() {
	block, _ := hex.DecodeString("818180")
	err := kombilad.Options{MaxLevels: 2}.Check(block)
	fmt.Println(err)
	// Output: kombilad: lists and maps nest deeper than the limit, at byte 2
}

func ExampleLinks() {
	block, _ := hex.DecodeString("82d82a450001550000d82a450001710000")
	links, err := kombilad.Links(block)
	fmt.Println(links, err)
	// Output: [bafkqaaa bafyqaaa] <nil>
}

func ExampleLinkPositions() {
	block, _ := hex.DecodeString("81d82a450001550000")
	positions, err := kombilad.LinkPositions(block)
	if err != nil {
		log.Fatal(err)
	}
	at := positions[0]
	fmt.Printf("%x\n", block[at.Offset:at.Offset+at.Len])
	// Output: 01550000
}

func ExampleCanonicalize() {
	block, _ := hex.DecodeString("a2626161026162f6")
	fmt.Println(kombilad.CheckCanonical(block))
	canonical, err := kombilad.Canonicalize(block)
	fmt.Printf("%x %v\n", canonical, err)
	// Output:
	// kombilad: the keys of a map are not in canonical order
	// a26162f662616102 <nil>
}

func ExampleDecodePb() {
	block, _ := hex.DecodeString("120b0a040155000012016118010a026869")
	node, err := kombilad.DecodePb(block)
	if err != nil {
		log.Fatal(err)
	}
	fmt.Println(node.Links[0].Hash, node.Links[0].Name, node.Links[0].Tsize, string(node.Data))
	// Output: bafkqaaa a 1 hi
}

func ExampleOpenCar() {
	file, _ := hex.DecodeString("19a265726f6f747381d82a4500015500006776657273696f6e01" + "0401550000" + "050171000001")
	car, err := kombilad.OpenCar(bytes.NewReader(file))
	if err != nil {
		log.Fatal(err)
	}
	fmt.Println(car.Version(), car.Roots())
	for {
		cid, block, err := car.Next()
		if err == io.EOF {
			break
		}
		if err != nil {
			log.Fatal(err)
		}
		links, err := kombilad.BlockLinks(cid, block)
		fmt.Println(cid, len(block), links, err)
	}
	// Output:
	// 1 [bafkqaaa]
	// bafkqaaa 0 [] <nil>
	// bafyqaaa 1 [] <nil>
}

// published returns the CID of a folder with the files hello.txt and two.txt, and a BlockGetter that
// has its blocks. They can come from anywhere, such as a CAR or a gateway.
func published() (kombilad.BlockGetter, kombilad.Cid) {
	blocks := map[kombilad.Cid][]byte{}
	for _, text := range []string{"hello\n", "hello ", "world\n"} {
		blocks[kombilad.NewCid(kombilad.Raw, []byte(text))] = []byte(text)
	}
	var root kombilad.Cid
	for _, digits := range []string{
		"0a0d0804120968656c6c6f2e747874",
		"122a0a24015512205e3235a8346e5a4585f8c58562f5052b8fe26a3bb122e1e96c76784964dfc46112001806122a0a2401551220e258d248" +
			"fda94c63753607f7c4494ee0fcbe92f1a76bfdac795c9d84101eb317120018060a080802180c20062006",
		"12330a24015512205891b5b522d5df086d0ff0b110fbd9d21bb4fc7163af34d08286a2e846f6be03120968656c6c6f2e7478741806122e0a" +
			"240170122011eefe699ac128ee88670118cd126e0d21e77610cd177fb13f32daf20eec1c5812046c696e6b180f12310a24017012209535a0" +
			"cba3b76a3b14393350a9770fa026a16b5d5c6bcd7120d5baba5379d39f120774776f2e747874186e0a020801",
	} {
		block, _ := hex.DecodeString(digits)
		root = kombilad.NewCid(kombilad.DagPb, block)
		blocks[root] = block
	}
	return func(cid kombilad.Cid) ([]byte, error) { return blocks[cid], nil }, root
}

func ExampleNewFS() {
	get, root := published()
	fsys, err := kombilad.NewFS(get, root)
	if err != nil {
		log.Fatal(err)
	}
	err = fs.WalkDir(fsys, ".", func(path string, entry fs.DirEntry, err error) error {
		if err != nil {
			return err
		}
		fmt.Println(entry.Type(), path)
		return nil
	})
	if err != nil {
		log.Fatal(err)
	}
	text, err := fs.ReadFile(fsys, "two.txt")
	fmt.Printf("%q %v\n", text, err)
	_, err = fs.ReadFile(fsys, "three.txt")
	fmt.Println(err, errors.Is(err, fs.ErrNotExist))
	target, err := fsys.ReadLink("link")
	fmt.Println(target, err, kombilad.SymlinkStaysInside(target, 0))
	// Output:
	// d--------- .
	// ---------- hello.txt
	// L--------- link
	// ---------- two.txt
	// "hello world\n" <nil>
	// open three.txt: file does not exist true
	// hello.txt <nil> true
}

func ExampleNewFolderReader() {
	get, root := published()
	folder, err := kombilad.NewFolderReader(get, root)
	if err != nil {
		log.Fatal(err)
	}
	defer folder.Close()
	for {
		entry, err := folder.Next()
		if err == io.EOF {
			break
		}
		if err != nil {
			log.Fatal(err)
		}
		fmt.Println(entry.Name, entry.Tsize, entry.Cid)
	}
	// Output:
	// hello.txt 6 bafkreicysg23kiwv34eg2d7qweipxwosdo2py4ldv42nbauguluen5v6am
	// link 15 bafybeiar537gtgwbfdxiqzybddgre3qnehtxmegnc573cpzs3lza53a4la
	// two.txt 110 bafybeievgwqmxi5xni5riojtkcuxod5ae2qwwxk4npgxcigvxk5fg6ott4
}

func ExampleNewFileReader() {
	get, _ := published()
	two, _ := kombilad.ParseCid("bafybeievgwqmxi5xni5riojtkcuxod5ae2qwwxk4npgxcigvxk5fg6ott4")
	file, err := kombilad.NewFileReader(get, two)
	if err != nil {
		log.Fatal(err)
	}
	defer file.Close()
	_, err = file.Seek(-6, io.SeekEnd) // the blocks before that are not read
	if err != nil {
		log.Fatal(err)
	}
	text, err := io.ReadAll(file)
	fmt.Printf("%d %q %v\n", file.Size(), text, err)

	lost := kombilad.NewCid(kombilad.Raw, []byte("lost"))
	_, err = kombilad.NewFileReader(get, lost)
	var failure *kombilad.Error
	fmt.Println(errors.Is(err, kombilad.ErrMissingBlock), errors.As(err, &failure) && failure.Cid == lost)
	// Output:
	// 12 "world\n" <nil>
	// true true
}

func ExampleReadNode() {
	block, _ := hex.DecodeString("0a180802120668656c6c6f0a180638a403420708011502000000")
	node, err := kombilad.ReadNode(kombilad.NewCid(kombilad.DagPb, block), block)
	if err != nil {
		log.Fatal(err)
	}
	fmt.Printf("%t %d %o %v\n", node.Kind == kombilad.NodeFile, node.Size, node.Mode, node.ModTime)
	// Output: true 6 644 1970-01-01 00:00:01.000000002 +0000 UTC
}

func ExamplePacker() {
	blocks := map[kombilad.Cid][]byte{}
	packer := kombilad.NewPacker(func(cid kombilad.Cid, block []byte) error {
		blocks[cid] = block
		return nil
	})
	file, err := packer.File(strings.NewReader("car\n"), nil)
	if err != nil {
		log.Fatal(err)
	}
	folder, err := packer.Folder([]kombilad.PackedEntry{{Name: "car", Packed: file}}, nil)
	if err != nil {
		log.Fatal(err)
	}
	link, err := packer.Symlink("b", nil)
	if err != nil {
		log.Fatal(err)
	}
	entries := []kombilad.PackedEntry{{Name: "b", Packed: folder}, {Name: "a", Packed: link}}
	root, err := packer.Folder(entries, nil)
	fmt.Println(root.Cid, root.Total, len(blocks), err)
	_, err = packer.Folder([]kombilad.PackedEntry{{Name: "..", Packed: file}}, nil)
	fmt.Println(err)
	// Output:
	// QmZDVQHwjHwA4SyzEDtJLNxmZeJVK1W8BWFAHV61x2Rs19 158 4 <nil>
	// kombilad: [".."]: the name of an entry is empty, . or .., or has a / or a zero byte
}

func ExamplePackOptions() {
	options := kombilad.PackOptions{Version: 1, RawLeaves: true}
	packer, err := options.NewPacker(func(cid kombilad.Cid, block []byte) error {
		fmt.Printf("%q\n", block)
		return nil
	})
	if err != nil {
		log.Fatal(err)
	}
	file, err := packer.File(strings.NewReader("hello world"), nil)
	fmt.Println(file.Cid, file.Size, err)
	// Output:
	// "hello world"
	// bafkreifzjut3te2nhyekklss27nh3k72ysco7y32koao5eei66wof36n5e 11 <nil>
}

func ExamplePacker_AddFS() {
	files := fstest.MapFS{"docs/hello.txt": {Data: []byte("hello\n")}} // or os.DirFS(".")
	blocks := map[kombilad.Cid][]byte{}
	root, err := kombilad.NewPacker(func(cid kombilad.Cid, block []byte) error {
		blocks[cid] = block
		return nil
	}).AddFS(files)
	if err != nil {
		log.Fatal(err)
	}
	get := func(cid kombilad.Cid) ([]byte, error) { return blocks[cid], nil }
	fsys, err := kombilad.NewFS(get, root.Cid)
	if err != nil {
		log.Fatal(err)
	}
	text, err := fs.ReadFile(fsys, "docs/hello.txt")
	fmt.Printf("%q %v\n", text, err)
	// Output: "hello\n" <nil>
}

func ExampleNewCarWriter() {
	files := fstest.MapFS{"hello.txt": {Data: []byte("hello\n")}, "two.txt": {Data: []byte("two\n")}}
	// A CAR begins with its roots, so the files are packed once to find the root.
	root, err := kombilad.NewPacker(func(kombilad.Cid, []byte) error { return nil }).AddFS(files)
	if err != nil {
		log.Fatal(err)
	}
	var file bytes.Buffer
	car, err := kombilad.NewCarWriter(&file, []kombilad.Cid{root.Cid})
	if err != nil {
		log.Fatal(err)
	}
	if _, err := kombilad.NewPacker(car.Write).AddFS(files); err != nil {
		log.Fatal(err)
	}

	again, err := kombilad.OpenCar(&file)
	if err != nil {
		log.Fatal(err)
	}
	count := 0
	again.Blocks()(func(kombilad.Cid, []byte) bool {
		count++
		return true
	})
	fmt.Println(again.Roots()[0] == root.Cid, count, again.Err())
	// Output: true 3 <nil>
}

// Time is a time. In a block it is a number of seconds.
type Time int64

func (t Time) MarshalIPLD() (any, error) { return int64(t), nil }

func (t *Time) UnmarshalIPLD(value any) error {
	seconds, isInteger := value.(int64)
	if !isInteger {
		return errors.New("a time must be an integer")
	}
	*t = Time(seconds)
	return nil
}

func ExampleUnmarshaler() {
	var times []Time
	err := kombilad.Unmarshal([]byte{0x82, 0x01, 0xf5}, &times)
	fmt.Println(times, err)
	// Output: [1] kombilad: [1]: a time must be an integer
}
