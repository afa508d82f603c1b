package kombilad

import (
	"encoding/json"
	"errors"
	"math"
	"math/big"
	"os"
	"regexp"
	"runtime"
	"strconv"
	"strings"
	"sync"
	"testing"
)

const (
	emptyMap = "bafyreigbtj4x7ip5legnfznufuopl4sg4knzc2cof6duas4b3q2fy6swua"
	version0 = "QmdfTbBqBPQ7VNxZEYEj14VmRuZBkqFbiwReogJgS1zR1n"
	asV1     = "bafybeihdwdcefgh4dqkjv67uzcmw7ojee6xedzdetojuzjevtenxquvyku"
	zeros32  = "0000000000000000000000000000000000000000000000000000000000000000"
)

func cidOfText(t testing.TB, text string) Cid {
	cid, err := ParseCid(text)
	if err != nil {
		t.Fatal(err)
	}
	return cid
}

// list returns a block: a list of nulls, or of other items that are blocks.
func list(items []any) []byte {
	block := []byte{0x9a, byte(len(items) >> 24), byte(len(items) >> 16), byte(len(items) >> 8), byte(len(items))}
	switch {
	case len(items) < 24:
		block = []byte{0x80 | byte(len(items))}
	case len(items) < 1<<8:
		block = []byte{0x98, byte(len(items))}
	case len(items) < 1<<16:
		block = []byte{0x99, byte(len(items) >> 8), byte(len(items))}
	}
	for _, item := range items {
		if encoded, isBlock := item.([]byte); isBlock {
			block = append(block, encoded...)
		} else {
			block = append(block, 0xf6)
		}
	}
	return block
}

// TestExamplesOfRFC8949 decodes and encodes examples of appendix A that DAG-CBOR allows, and checks
// that others are rejected.
func TestExamplesOfRFC8949(t *testing.T) {
	huge, _ := new(big.Int).SetString("-18446744073709551616", 10)
	to25 := make([]any, 25)
	for at := range to25 {
		to25[at] = int64(at + 1)
	}
	for digits, value := range map[string]any{
		"00": int64(0), "01": int64(1), "0a": int64(10), "17": int64(23), "1818": int64(24),
		"1819": int64(25), "1864": int64(100), "1903e8": int64(1000), "1a000f4240": int64(1_000_000),
		"1b000000e8d4a51000": int64(1_000_000_000_000), "1bffffffffffffffff": uint64(math.MaxUint64),
		"3bffffffffffffffff": huge, "20": int64(-1), "29": int64(-10), "3863": int64(-100),
		"3903e7": int64(-1000), "fb3ff199999999999a": 1.1, "fb7e37e43c8800759c": 1.0e+300,
		"fbc010666666666666": -4.1, "f4": false, "f5": true, "f6": nil, "40": []byte{},
		"4401020304": []byte{1, 2, 3, 4}, "60": "", "6161": "a", "6449455446": "IETF", "62225c": "\"\\",
		"62c3bc": "ü", "63e6b0b4": "水", "64f0908591": "𐅑", "80": []any{},
		"83010203": []any{int64(1), int64(2), int64(3)},
		"8301820203820405": []any{
			int64(1), []any{int64(2), int64(3)}, []any{int64(4), int64(5)},
		},
		"98190102030405060708090a0b0c0d0e0f101112131415161718181819": to25,
		"a0": map[string]any{},
		"a26161016162820203": map[string]any{
			"a": int64(1), "b": []any{int64(2), int64(3)},
		},
		"826161a161626163": []any{"a", map[string]any{"b": "c"}},
		"a56161614161626142616361436164614461656145": map[string]any{
			"a": "A", "b": "B", "c": "C", "d": "D", "e": "E",
		},
	} {
		block := unhex(t, digits)
		found, err := Decode(block)
		same(t, digits, err, nil)
		same(t, digits, found, value)
		encoded, err := Encode(value)
		same(t, digits, err, nil)
		same(t, digits, encoded, block)
	}
	for digits, status := range map[string]Status{
		"f90000": ErrBlockFloat, "f93c00": ErrBlockFloat, "fa47c35000": ErrBlockFloat,
		"f97c00": ErrBlockFloat, "fb7ff0000000000000": ErrBlockFloat,
		"fb7ff8000000000000": ErrBlockFloat, "fbfff0000000000000": ErrBlockFloat,
		"f7": ErrBlockUnsupported, "f0": ErrBlockUnsupported, "f8ff": ErrBlockUnsupported,
		"c249010000000000000000": ErrBlockUnsupported, "c11a514b67b0": ErrBlockUnsupported,
		"5f42010243030405ff": ErrBlockUnsupported, "7f657374726561646d696e67ff": ErrBlockUnsupported,
		"9fff": ErrBlockUnsupported, "bf61610161629f0203ffff": ErrBlockUnsupported,
	} {
		_, err := Decode(unhex(t, digits))
		sameError(t, digits, err, status, 0)
	}
	_, err := Decode(unhex(t, "a201020304"))
	sameError(t, "keys of integers", err, ErrBlockKeyNotText, 1)
}

func TestJSON(t *testing.T) {
	for text, digits := range map[string]string{
		"null": "f6", "18446744073709551615": "1bffffffffffffffff", "-0.0": "fb8000000000000000",
		`"\"é\u001f"`: "6422c3a91f", `{"/":{"bytes":"aGk"}}`: "426869",
		`[{"/":"bafkqaaa"},[],{}]`: "83d82a45000155000080a0", `{"aa":1,"b":{"/":2}}`: "a26162a1612f0262616101",
	} {
		found, err := ToJSON(unhex(t, digits))
		same(t, text, err, nil)
		same(t, text, string(found), text)
		block, err := FromJSON([]byte(" " + text + "\n"))
		same(t, text, err, nil)
		same(t, text, block, unhex(t, digits))
	}
	// More bytes than the first buffer has room for.
	escaped := append(unhex(t, "7a000186a0"), strings.Repeat("\x01", 100_000)...)
	text, err := ToJSON(escaped)
	same(t, "a long text", err, nil)
	same(t, "a long text", string(text), `"`+strings.Repeat(`\u0001`, 100_000)+`"`)
	floats, err := FromJSON([]byte("[" + strings.Repeat("1.5,", 9999) + "1.5]"))
	same(t, "floats", []any{len(floats), err}, []any{90_003, nil})
	for text, row := range map[string]struct {
		status Status
		offset int64
	}{
		"\"\xff\"": {ErrJSONUTF8, 1}, "[1,]": {ErrJSONSyntax, 3}, "": {ErrJSONEnd, 0}, "1e400": {ErrJSONFloat, 0},
		" 18446744073709551616": {ErrJSONIntegerRange, 1}, `{"a":1,"\u0061":2}`: {ErrJSONDuplicateKey, 7},
		`{"/":"bafkqaa"}`: {ErrJSONLink, 14}, `{"/":{"bytes":"="}}`: {ErrJSONBytes, 18},
		`{"/":"bafkqaaa","0":1}`: {ErrJSONReserved, 21},
	} {
		block, err := FromJSON([]byte(text))
		sameError(t, text, err, row.status, row.offset)
		same(t, text, block, []byte(nil))
	}
	_, err = ToJSON(unhex(t, "8200a1612f6161"))
	sameError(t, "a reserved map", err, ErrJSONReservedMap, 2)
	_, err = Options{MaxLevels: 1}.FromJSON([]byte("[[]]"))
	sameError(t, "levels", err, ErrTooDeep, 1)
	_, err = Options{MaxValues: 2}.FromJSON([]byte(`[{"/":"bafkqaaa"}]`))
	sameError(t, "values", err, ErrTooMany, 6)
	_, err = Options{MaxLevels: 1}.ToJSON(unhex(t, "8180"))
	sameError(t, "levels of a block", err, ErrTooDeep, 1)
}

func TestGet(t *testing.T) {
	text := `{"a":[1,{"b":"cd","é":[{"/":"bafkqaaa"}]}],"l":{"/":"bafkqaaa"},"0":{"1":null}}`
	block, err := FromJSON([]byte(text))
	same(t, "block", err, nil)
	for path, row := range map[string]struct{ value, rest string }{
		"": {text, ""}, "//": {text, ""}, "a/+0": {"1", ""}, "/a//1/b/": {`"cd"`, ""},
		"a/01/é": {`[{"/":"bafkqaaa"}]`, ""}, "0/1": {"null", ""}, "l/": {`{"/":"bafkqaaa"}`, ""},
		"l//x/é/": {`{"/":"bafkqaaa"}`, "x/é/"}, "a/1/é/0/é": {`{"/":"bafkqaaa"}`, "é"},
	} {
		expected, err := FromJSON([]byte(row.value))
		same(t, path, err, nil)
		value, rest, err := Get(block, path)
		same(t, path, []any{value, rest, err}, []any{expected, row.rest, nil})
		same(t, path, cap(value), len(value))
	}
	for path, row := range map[string]struct {
		status Status
		path   string
	}{
		"b": {ErrPathMissing, "b"}, ".": {ErrPathMissing, `["."]`}, "a/2/x": {ErrPathMissing, `a["2"]`},
		"//a//-1": {ErrPathMissing, `a["-1"]`}, "a/18446744073709551616": {ErrPathMissing, `a["18446744073709551616"]`},
		"a/0/0": {ErrPathNotAContainer, `a["0"]["0"]`}, "0/1/x/y": {ErrPathNotAContainer, `["0"]["1"].x`},
	} {
		value, rest, err := Get(block, path)
		sameError(t, path, err, row.status, -1)
		var failure *Error
		errors.As(err, &failure)
		same(t, path, []any{failure.Path, value, rest}, []any{row.path, []byte(nil), ""})
	}
	_, _, err = Get(block, "a/2")
	same(t, "sentence", err.Error(), `kombilad: a["2"]: the path leads to no key or index`)
	_, _, err = Get(block, "a/\xff")
	sameError(t, "no text", err, ErrTextUTF8, -1)
	for length := range block {
		_, _, err := Get(block[:length], "b")
		same(t, "a cut block", err, Check(block[:length]))
	}
	flat := Options{MaxLevels: 3}
	_, _, err = flat.Get(block, "b")
	same(t, "levels", err, flat.Check(block))
}

// The CIDs are examples of the CID specification and of IPFS's documentation.
func TestCids(t *testing.T) {
	raw := cidOfText(t, "zb2rhe5P4gXftAwvA4eXQ5HJwsER2owDyS9sKaQRRVQPn93bA")
	same(t, "parts", []uint64{raw.Version(), raw.Codec(), raw.HashCode()}, []uint64{1, Raw, SHA2_256})
	same(t, "digest", raw.Digest(), unhex(t, "6e6ff7950a36187a801613426e858dce686cd7d7e3c0fc42ee0330072d245c95"))
	v0, v1 := cidOfText(t, "/ipfs/"+version0), cidOfText(t, asV1)
	same(t, "v0", []any{v0.Version(), v0.Codec(), v0.String(), v0 == v1}, []any{uint64(0), DagPb, version0, false})
	same(t, "digests", v0.Digest(), v1.Digest())
	same(t, "GoString", v1.GoString(), `kombilad.ParseCid("`+asV1+`")`)
	same(t, "NewCid", NewCid(DagCbor, []byte{0xa0}).String(), emptyMap)
	same(t, "a codec of 64 bits", NewCid(math.MaxUint64, nil).Codec(), uint64(math.MaxUint64))
	same(t, "a key", map[Cid]int{v0: 1, v1: 2}[cidOfText(t, version0)], 1)
	again, err := CidFromBytes([]byte(v1.KeyString()))
	same(t, "bytes", []any{again, err}, []any{v1, nil})
	_, err = v0.StringOfBase(Base32)
	sameError(t, "v0 in base32", err, ErrV0Base, -1)
	_, err = v1.StringOfBase('m')
	sameError(t, "base64", err, ErrUnknownBase, -1)
	for text, row := range map[string]struct {
		status Status
		offset int64
	}{
		"": {ErrTextUnknownBase, -1}, "mAXASIA": {ErrTextUnknownBase, -1},
		"bafkqaa1": {ErrTextInvalidLetter, 7}, "/ipfs/bafkqaa1": {ErrTextInvalidLetter, 13},
		"bafkqaab": {ErrTextUnusedBits, -1}, "ba": {ErrTextInvalidLength, -1}, "bafkq": {ErrCidEnd, -1},
		"z" + version0: {ErrTextWrongVersion, -1}, "b\xff": {ErrTextUTF8, -1},
	} {
		cid, err := ParseCid(text)
		sameError(t, text, err, row.status, row.offset)
		same(t, text, cid, Cid{})
	}
	sameError(t, "Verify", raw.Verify(nil), ErrWrongDigest, -1)
}

func TestTheUndefinedCid(t *testing.T) {
	var zero Cid
	same(t, "Defined", []bool{zero.Defined(), cidOfText(t, emptyMap).Defined()}, []bool{false, true})
	same(t, "parts", []any{zero.String(), zero.Version(), zero.Codec(), zero.HashCode()}, []any{"", uint64(0), uint64(0), uint64(0)})
	same(t, "digest", len(zero.Digest())+len(zero.Bytes()), 0)
	sameError(t, "Verify", zero.Verify(nil), ErrCidEnd, -1)
	_, err := Marshal(map[string]any{"a": []Cid{zero}})
	sameError(t, "Marshal", err, ErrUndefinedCid, -1)
	same(t, "Marshal", err.Error(), "kombilad: a[0]: an undefined CID cannot be encoded")
	_, err = BlockLinks(zero, nil)
	sameError(t, "BlockLinks", err, ErrUnknownCodec, -1)
}

func TestCidsInOtherFormats(t *testing.T) {
	type post struct {
		Of   Cid
		None Cid
		Keys map[Cid]int
	}
	value := post{Of: cidOfText(t, emptyMap), Keys: map[Cid]int{cidOfText(t, version0): 1}}
	text, err := json.Marshal(value)
	same(t, "JSON", err, nil)
	same(t, "JSON", string(text), `{"Of":{"/":"`+emptyMap+`"},"None":null,"Keys":{"`+version0+`":1}}`)
	var read post
	same(t, "JSON", json.Unmarshal(text, &read), nil)
	same(t, "JSON", read, value)
	for _, other := range []string{`{}`, `{"/":1}`, `{"/":"bafkqaaa","a":1}`, `{"/":null}`, `7`} {
		var cid Cid
		sameError(t, other, json.Unmarshal([]byte(other), &cid), ErrType, -1)
	}
	var cid Cid
	sameError(t, "text", json.Unmarshal([]byte(`{"/":"bafkqaa1"}`), &cid), ErrTextInvalidLetter, 7)
	for _, one := range []Cid{value.Of, {}} {
		bytes, err := one.MarshalBinary()
		same(t, "binary", err, nil)
		read, text := cidOfText(t, version0), cidOfText(t, version0)
		same(t, "binary", read.UnmarshalBinary(bytes), nil)
		inText, err := one.MarshalText()
		same(t, "text", err, nil)
		same(t, "text", text.UnmarshalText(inText), nil)
		same(t, "both", []Cid{read, text}, []Cid{one, one})
	}
	sameError(t, "binary", cid.UnmarshalBinary([]byte{2}), ErrCidUnknownVersion, -1)
}

func TestEachStatusHasAConstantAndASentence(t *testing.T) {
	source, err := os.ReadFile("status.go")
	if err != nil {
		t.Fatal(err)
	}
	named := map[string]bool{}
	for _, it := range regexp.MustCompile(`C\.KOMBILAD_(\w+)`).FindAllSubmatch(source, -1) {
		named[string(it[1])] = true
	}
	// No call of this package returns these.
	for _, name := range strings.Fields("OK OTHER TOO_SHORT CAR_DONE CAR_MORE WALK_DONE WALK_CLOSED FOLDER_MISSING FOLDER_MORE TAPE_MISSING TAPE_LEFT_OVER TAPE_KIND TAPE_SPAN TAPE_FIELDS TAPE_CONTENT PACK_NANOSECONDS PACK_WAITING") {
		named[name] = true
	}
	unknown := Status(999).Error()
	sentences := map[string]string{}
	for name, status := range statuses(t) {
		if !named[name] {
			t.Errorf("KOMBILAD_%s has no constant", name)
		}
		if status.Error() == unknown && name != "OTHER" {
			t.Errorf("KOMBILAD_%s has no sentence", name)
		}
		sentences[name] = status.Error()
	}
	same(t, "a link", sentences["LINK_DIGEST_TOO_LONG"], "the digest of a link is longer than 64 bytes")
	for status := ErrType; status <= ErrInUse; status++ {
		if status.Error() == unknown {
			t.Errorf("%d has no sentence", status)
		}
	}
	same(t, "another", unknown, "the status is not one of this version")
}

func TestVersionIsTheHeaders(t *testing.T) {
	header, err := os.ReadFile("kombilad.h")
	if err != nil {
		t.Fatal(err)
	}
	numbers := regexp.MustCompile(`#define KOMBILAD_VERSION_\w+ (\d+)`).FindAllStringSubmatch(string(header), -1)
	major, minor, patch := Version()
	for at, number := range []int{major, minor, patch} {
		same(t, "version", strconv.Itoa(number), numbers[at][1])
	}
}

func TestErrorsAreFound(t *testing.T) {
	err := Check([]byte{0x81})
	var failure *Error
	same(t, "As", errors.As(err, &failure), true)
	same(t, "fields", []any{failure.Status, failure.Offset, failure.Path}, []any{ErrBlockEnd, int64(1), ""})
	same(t, "Is", []bool{errors.Is(err, ErrBlockEnd), errors.Is(err, ErrBlockUTF8)}, []bool{true, false})
	same(t, "text", err.Error(), "kombilad: the bytes end before the item does, at byte 1")
	same(t, "no error", Check([]byte{0x80}), nil)
}

// nested returns nested lists, or nested maps with the key "".
func nested(levels int, head string) []byte {
	return []byte(strings.Repeat(head, levels-1) + string([]byte{head[0] - 1}))
}

func TestDeepBlocks(t *testing.T) {
	most := 1_000_000
	if testing.Short() {
		most = 100_000
	}
	for _, head := range []string{"\x81", "\xa1\x60"} {
		block := nested(most, head)
		_, err := Decode(block)
		sameError(t, "Decode", err, ErrTooDeep, int64(1024*len(head)))
		value, err := Options{MaxLevels: most}.Decode(block)
		same(t, "Decode", err, nil)
		levels := 0
		for inner := value; inner != nil; levels++ {
			switch it := inner.(type) {
			case []any:
				inner = nil
				if len(it) == 1 {
					inner = it[0]
				}
			case map[string]any:
				inner = it[""]
			}
		}
		same(t, "levels", levels, most)
		_, err = Encode(value)
		same(t, "Encode", errors.Is(err, ErrTooDeep), true)
		_, err = Options{MaxLevels: math.MaxInt}.Encode(value)
		same(t, "Encode", errors.Is(err, ErrTooDeep), true)
		var recursive recursive
		err = Options{MaxLevels: math.MaxInt}.Unmarshal(block, &recursive)
		sameError(t, "Unmarshal", err, ErrTooDeep, int64(10_000*len(head)))
	}
	deep := nested(10_000, "\x81")
	value, err := Options{MaxLevels: 10_000}.Decode(deep)
	same(t, "Decode", err, nil)
	again, err := Options{MaxLevels: 10_000}.Encode(value)
	same(t, "Encode", err, nil)
	same(t, "Encode", string(again) == string(deep), true)
	var typed recursive
	same(t, "Unmarshal", Options{MaxLevels: 10_000}.Unmarshal(deep, &typed), nil)
	again, err = Options{MaxLevels: 10_000}.Marshal(typed)
	same(t, "Marshal", err, nil)
	same(t, "Marshal", string(again) == string(deep), true)
}

type recursive []recursive

func TestLevelsAreCountedExactly(t *testing.T) {
	type inner struct{ A []int }
	for _, value := range []any{
		[]any{map[string]any{}}, [][]any{{1}}, map[string]inner{"a": {}}, []inner{{}}, &inner{[]int{}}, [1][1]int{},
	} {
		block, err := Options{MaxLevels: 2}.Marshal(value)
		same(t, "two levels", err, nil)
		_, err = Options{MaxLevels: 1}.Marshal(value)
		sameError(t, "one level", err, ErrTooDeep, -1)
		_, err = Options{MaxLevels: -1}.Encode(value)
		sameError(t, "no level", err, ErrTooDeep, -1)
		var read any
		same(t, "two levels", Options{MaxLevels: 2}.Unmarshal(block, &read), nil)
		for _, levels := range []int{1, -1} {
			err := Options{MaxLevels: levels}.Unmarshal(block, &read)
			same(t, "fewer levels", errors.Is(err, ErrTooDeep), true)
		}
	}
	block, err := Options{MaxLevels: -1}.Encode("text")
	same(t, "no level", []any{block, err}, []any{[]byte("\x64text"), nil})
}

func TestValuesThatContainThemselves(t *testing.T) {
	type node struct{ Next *node }
	cyclic := &node{}
	cyclic.Next = cyclic
	list, object := []any{nil}, map[string]any{}
	list[0], object["a"] = list, object
	var pointer any
	pointer = &pointer
	for _, value := range []any{cyclic, list, object, itself{}, pointer} {
		_, err := Marshal(value)
		same(t, "Marshal", errors.Is(err, ErrTooDeep), true)
	}
}

type itself struct{}

func (it itself) MarshalIPLD() (any, error) { return it, nil }

func TestLargeBlocks(t *testing.T) {
	const many = 70_000
	link := append([]byte{0xd8, 0x2a, 0x58, 0x25, 0}, NewCid(Raw, nil).Bytes()...)
	links, nulls := make([]any, many), make([]any, many)
	object, numbers := map[string]any{}, []any{}
	for at := range links {
		links[at] = link
		object[strconv.Itoa(at)] = int64(at)
		numbers = append(numbers, int64(at))
	}
	found, err := Links(list(links))
	same(t, "Links", []any{len(found), err, found[many-1]}, []any{many, nil, NewCid(Raw, nil)})
	for name, value := range map[string]any{
		"nulls": nulls, "map": object, "list": numbers, "string": strings.Repeat("ö", many),
		"bytes": []byte(strings.Repeat("x", many)), "lists": []any{nulls, numbers, object},
	} {
		block, err := Encode(value)
		same(t, name, err, nil)
		same(t, name, CheckCanonical(block), nil)
		again, err := Decode(block)
		same(t, name, err, nil)
		if valueText(again) != valueText(value) {
			t.Errorf("%s differs", name)
		}
	}
}

// allocated returns the number of bytes that a call allocates in Go.
func allocated(call func()) uint64 {
	var before, after runtime.MemStats
	runtime.ReadMemStats(&before)
	call()
	runtime.ReadMemStats(&after)
	return after.TotalAlloc - before.TotalAlloc
}

func TestCountsTakeNoMemory(t *testing.T) {
	type big struct{ Numbers [1 << 16]int }
	type small struct{ Name string }
	for _, digits := range []string{"9bffffffffffffffff", "bbffffffffffffffff", "5bffffffffffffffff", "7b00000001ffffffff", "9a7fffffff"} {
		block := unhex(t, digits)
		took := allocated(func() {
			_, err := Decode(block)
			same(t, digits, errors.Is(err, ErrBlockEnd), true)
			var typed []big
			same(t, digits, errors.Is(Unmarshal(block, &typed), ErrBlockEnd), true)
		})
		if took > 1<<18 {
			t.Errorf("%s takes %d bytes", digits, took)
		}
	}
	// Of 100,000 items the first one doesn't fit.
	items := make([]any, 100_000)
	items[0] = []byte{0x01}
	took := allocated(func() {
		var typed []big
		err := Unmarshal(list(items), &typed)
		sameError(t, "items", err, ErrType, -1)
		same(t, "items", err.Error(), "kombilad: [0]: an integer does not fit the Go type kombilad.big")
	})
	if took > 8<<20 {
		t.Errorf("a list that doesn't fit takes %d bytes", took)
	}
	var typed []small
	same(t, "items", Unmarshal(list(items[1:]), &typed), nil)
	same(t, "items", len(typed), len(items)-1)
}

func TestAValueKeepsNothingOfItsBlock(t *testing.T) {
	block := unhex(t, "a26161426869616263686f68")
	value, err := Decode(block)
	same(t, "Decode", err, nil)
	var typed struct {
		A []byte `ipld:"a"`
		B string `ipld:"b"`
	}
	same(t, "Unmarshal", Unmarshal(block, &typed), nil)
	for at := range block {
		block[at] = 0
	}
	same(t, "Decode", value, map[string]any{"a": []byte("hi"), "b": "hoh"})
	same(t, "Unmarshal", string(typed.A)+typed.B, "hihoh")
}

func TestGoroutinesCallAtOnce(t *testing.T) {
	type tree struct {
		Name     string
		Of       Cid
		Children []*tree
		Parts    map[string]tree
	}
	value := tree{Name: "a", Of: cidOfText(t, emptyMap), Children: []*tree{{Name: "b", Of: cidOfText(t, version0)}}}
	value.Parts = map[string]tree{"c": *value.Children[0]}
	block, err := Marshal(value)
	same(t, "Marshal", err, nil)
	var all sync.WaitGroup
	for worker := 0; worker < 16; worker++ {
		all.Add(1)
		go func() {
			defer all.Done()
			for turn := 0; turn < 200; turn++ {
				var read tree
				same(t, "Unmarshal", Unmarshal(block, &read), nil)
				again, err := Marshal(read)
				same(t, "Marshal", []any{again, err}, []any{block, nil})
				links, err := Links(block)
				same(t, "Links", []any{len(links), err}, []any{3, nil})
				same(t, "String", links[0].String()+links[2].String() != "", true)
				if turn%50 == 0 {
					runtime.GC()
				}
			}
		}()
	}
	all.Wait()
}

func TestBlocksOfMoreThan2GiB(t *testing.T) {
	if os.Getenv("KOMBILAD_LARGE") == "" {
		t.Skip("KOMBILAD_LARGE is not set: it takes up to 6 GiB of memory")
	}
	gib := 1 << 30
	length := 2*gib + 5
	block := make([]byte, 6+length+1)
	copy(block, []byte{0x82, 0x5a, 0x80, 0, 0, 5})
	same(t, "Check", Check(block), nil)
	value, err := Decode(block)
	same(t, "Decode", err, nil)
	same(t, "length", len(value.([]any)[0].([]byte)), length)
	same(t, "the rest", value.([]any)[1], int64(0))
	block[len(block)-1] = 0xf7
	_, err = Decode(block)
	sameError(t, "Decode", err, ErrBlockUnsupported, int64(len(block)-1))
	_, err = Encode(make([]byte, 4*gib))
	sameError(t, "Encode", err, ErrTooLong, -1)
}
