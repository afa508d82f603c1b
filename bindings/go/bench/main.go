// Command bench measures the package and fxamacker/cbor in turns, and prints tables.
//
//	bench FOLDER-OF-THE-DATA
//
// The folder has the data that bench/data.py writes. A time is the least of many runs, in
// microseconds.
package main

import (
	"bytes"
	"fmt"
	"io"
	"log"
	"math"
	"os"
	"path/filepath"
	"reflect"
	"runtime"
	"strings"
	"testing"
	"time"

	"example.org/kombilad"
	"github.com/fxamacker/cbor/v2"
)

const rounds = 40

// link is a CID as fxamacker/cbor reads it: a byte string with the tag 42.
type link []byte

type person struct {
	Name    string       `ipld:"name"`
	Age     uint8        `ipld:"age"`
	Hobbies []string     `ipld:"hobbies"`
	IsCool  bool         `ipld:"is_cool"`
	Link    kombilad.Cid `ipld:"link"`
}

type theirPerson struct {
	Name    string   `cbor:"name"`
	Age     uint8    `cbor:"age"`
	Hobbies []string `cbor:"hobbies"`
	IsCool  bool     `cbor:"is_cool"`
	Link    link     `cbor:"link"`
}

type fileNode struct {
	Data  []byte     `ipld:"Data"`
	Links []fileLink `ipld:"Links"`
}

type fileLink struct {
	Hash  kombilad.Cid `ipld:"Hash"`
	Name  string       `ipld:"Name"`
	Tsize uint64       `ipld:"Tsize"`
}

type theirFile struct {
	Data  []byte          `cbor:"Data"`
	Links []theirFileLink `cbor:"Links"`
}

type theirFileLink struct {
	Hash  link   `cbor:"Hash"`
	Name  string `cbor:"Name"`
	Tsize uint64 `cbor:"Tsize"`
}

type article struct {
	Title string   `ipld:"title" cbor:"title"`
	Body  string   `ipld:"body" cbor:"body"`
	Tags  []string `ipld:"tags" cbor:"tags"`
}

// least returns the microseconds of each piece of work, run in turns.
func least(works ...func()) []float64 {
	times, found := make([]int, len(works)), make([]float64, len(works))
	for at, work := range works {
		work()
		begin := time.Now()
		work()
		times[at] = 1 + int(2*time.Millisecond/(time.Since(begin)+1))
		found[at] = math.Inf(1)
	}
	for round := 0; round < rounds; round++ {
		for at, work := range works {
			begin := time.Now()
			for turn := 0; turn < times[at]; turn++ {
				work()
			}
			found[at] = math.Min(found[at], float64(time.Since(begin).Nanoseconds())/1000/float64(times[at]))
		}
	}
	return found
}

func must[T any](value T, err error) T {
	check(err)
	return value
}

func check(err error) {
	if err != nil {
		log.Fatal(err)
	}
}

// row measures decoding and encoding by both.
func row(name string, size int, ours, theirs, encode, theirEncode func()) {
	times := least(ours, theirs, encode, theirEncode)
	fmt.Printf("| %s | %d | %.1f | %.1f | %.2f | %.1f | %.1f | %.2f | %.0f / %.0f |\n", name, size,
		times[0], times[1], times[0]/times[1], times[2], times[3], times[2]/times[3],
		testing.AllocsPerRun(10, ours), testing.AllocsPerRun(10, theirs))
}

// typed measures a Go type with each package. Both have to encode the same block again.
func typed[Ours, Theirs any](name string, block []byte, decoding cbor.DecMode, encoding cbor.EncMode) {
	var ours Ours
	var theirs Theirs
	check(kombilad.Unmarshal(block, &ours))
	check(decoding.Unmarshal(block, &theirs))
	if !bytes.Equal(must(kombilad.Marshal(ours)), block) || !bytes.Equal(must(encoding.Marshal(theirs)), block) {
		log.Fatal(name, " differs")
	}
	row(name, len(block),
		func() { var it Ours; check(kombilad.Unmarshal(block, &it)) },
		func() { var it Theirs; check(decoding.Unmarshal(block, &it)) },
		func() { must(kombilad.Marshal(ours)) },
		func() { must(encoding.Marshal(theirs)) })
}

func main() {
	if len(os.Args) != 2 {
		log.Fatal("usage: bench FOLDER-OF-THE-DATA")
	}
	read := func(name string) []byte { return must(os.ReadFile(filepath.Join(os.Args[1], name))) }
	tags := cbor.NewTagSet()
	required := cbor.TagOptions{EncTag: cbor.EncTagRequired, DecTag: cbor.DecTagRequired}
	check(tags.Add(required, reflect.TypeOf(link{}), 42))
	decoding := must(cbor.DecOptions{
		DupMapKey:       cbor.DupMapKeyEnforcedAPF,
		DefaultMapType:  reflect.TypeOf(map[string]any{}),
		MaxNestedLevels: 256,
	}.DecModeWithTags(tags))
	encoding := must(cbor.CanonicalEncOptions().EncModeWithTags(tags))

	fmt.Println("| block | bytes | decode, µs | fxamacker, µs | ratio | encode, µs | fxamacker, µs | ratio | allocations |")
	fmt.Println("|" + strings.Repeat("---|", 9))
	for _, name := range []string{"person", "record", "post", "file", "hamt", "integers", "keys", "strings"} {
		block := read(name + ".cbor")
		ours := must(kombilad.Decode(block))
		var theirs any
		check(decoding.Unmarshal(block, &theirs))
		if !bytes.Equal(must(kombilad.Encode(ours)), block) || !bytes.Equal(must(encoding.Marshal(theirs)), block) {
			log.Fatal(name, " differs")
		}
		row("`"+name+"`", len(block),
			func() { must(kombilad.Decode(block)) },
			func() { var it any; check(decoding.Unmarshal(block, &it)) },
			func() { must(kombilad.Encode(ours)) },
			func() { must(encoding.Marshal(theirs)) })
	}
	typed[person, theirPerson]("`person`, a struct", read("person.cbor"), decoding, encoding)
	typed[fileNode, theirFile]("`file`, structs", read("file.cbor"), decoding, encoding)
	typed[[]article, []article]("`strings`, structs", read("strings.cbor"), decoding, encoding)

	fmt.Println("\n| call | µs |\n|---|---|")
	single := func(name string, work func()) { fmt.Printf("| %s | %.3f |\n", name, least(work)[0]) }
	single("`Version`, an empty call of C", func() { kombilad.Version() })
	for _, name := range []string{"record", "post", "file", "hamt"} {
		block := read(name + ".cbor")
		single("`Links` of `"+name+"`", func() { must(kombilad.Links(block)) })
		single("`Check` of `"+name+"`", func() { check(kombilad.Check(block)) })
	}
	cid := kombilad.NewCid(kombilad.DagCbor, []byte{0xa0})
	text := cid.String()
	single("`Cid.String`", func() { _ = cid.String() })
	single("`ParseCid`", func() { must(kombilad.ParseCid(text)) })
	record := read("record.cbor")
	single("`NewCid` of `record`, SHA2-256", func() { kombilad.NewCid(kombilad.DagCbor, record) })
	car := read("blocks.car")
	single("all 500 blocks of a CAR", func() {
		r := must(kombilad.OpenCar(bytes.NewReader(car)))
		for {
			if _, _, err := r.Next(); err == io.EOF {
				return
			} else if err != nil {
				log.Fatal(err)
			}
		}
	})
	fmt.Printf("\n%s, %s/%s\n", runtime.Version(), runtime.GOOS, runtime.GOARCH)
}
