package kombilad

import (
	"bufio"
	"bytes"
	"encoding/binary"
	"encoding/hex"
	"encoding/json"
	"errors"
	"fmt"
	"io"
	"math"
	"os"
	"reflect"
	"regexp"
	"sort"
	"strconv"
	"strings"
	"testing"
	"testing/iotest"
)

// statuses returns the numbers of the statuses in the header, by their names.
func statuses(t testing.TB) map[string]Status {
	header, err := os.ReadFile("kombilad.h")
	if err != nil {
		t.Fatal(err)
	}
	found := map[string]Status{}
	for _, line := range regexp.MustCompile(`(?m)^    KOMBILAD_([A-Z0-9_]+) = (\d+)`).FindAllSubmatch(header, -1) {
		number, _ := strconv.Atoi(string(line[2]))
		if !regexp.MustCompile("^(KIND_|BASE|NODE_)").Match(line[1]) {
			found[string(line[1])] = Status(number)
		}
	}
	return found
}

// randomCase is a line of test/cases.py: an input, and the result of a reader in Python.
type randomCase struct {
	Case, Input string
	Error       string
	Offset      int64

	Levels, Values int
	Value          string
	Links          []string
	Positions      [][2]int
	Canonical      string
	Paths          []pathRow

	Parts               []string
	Base, Text, Changed string

	Node [][3]*string
	Data *string

	Limit, SectionLimit int
	Version             int
	Roots               []string
	Sections            [][2]string

	Cid string

	Name   string
	Blocks [][2]string
	Tree   []treeRow
	Kind   string
	Errors []string

	RawLeaves    bool
	Chunk, Width int
	Above        int64
	Pack         packRow
}

// pathRow is a path, and the range of its value and its rest, or the name of a status.
type pathRow struct {
	Path, Error, Rest string
	Span              [2]int
}

// TestRandomCases compares the results with those of a reader that shares no code with the library.
// KOMBILAD_CASES is the file that test/cases.py has written.
func TestRandomCases(t *testing.T) {
	byName := statuses(t)
	count, valid := map[string]int{}, map[string]int{}
	eachCase(t, func(it randomCase, line []byte) bool {
		count[it.Case]++
		if it.Error == "" && it.Errors == nil {
			valid[it.Case]++
		}
		if byName[it.Error] == 0 && it.Error != "" {
			t.Fatalf("there is no status %s", it.Error)
		}
		input := unhex(t, it.Input)
		checks := map[string]func(*testing.T, randomCase, []byte, Status){
			"block": checkBlockCase, "cid": checkCidCase, "pb": checkPbCase, "car": checkCarCase,
			"digest": checkDigestCase, "tree": checkTreeCase, "fault": checkFaultCase,
			"pack": checkPackCase,
		}
		checks[it.Case](t, it, input, byName[it.Error])
		if t.Failed() {
			t.Fatalf("case: %.10000s", line)
		}
		return true
	})
	if len(count) != 8 {
		t.Fatal(count)
	}
	t.Logf("cases: %v, of which are valid: %v", count, valid)
}

// eachCase calls a function with each case and its line, until it returns false.
func eachCase(t *testing.T, use func(it randomCase, line []byte) bool) {
	name := os.Getenv("KOMBILAD_CASES")
	if name == "" {
		t.Skip("KOMBILAD_CASES is not set: run test.sh")
	}
	file, err := os.Open(name)
	if err != nil {
		t.Fatal(err)
	}
	defer file.Close()
	lines := bufio.NewScanner(file)
	lines.Buffer(nil, 64<<20)
	for lines.Scan() {
		var it randomCase
		if err := json.Unmarshal(lines.Bytes(), &it); err != nil {
			t.Fatal(err)
		}
		if !use(it, lines.Bytes()) {
			return
		}
	}
	if lines.Err() != nil {
		t.Fatal(lines.Err())
	}
}

func unhex(t testing.TB, digits string) []byte {
	found, err := hex.DecodeString(digits)
	if err != nil {
		t.Fatal(err)
	}
	return found
}

// sameError checks that an error has a status and an offset.
func sameError(t *testing.T, what string, err error, status Status, offset int64) {
	t.Helper()
	var found *Error
	switch {
	case status == 0 && err == nil:
	case status == 0 || !errors.As(err, &found) || !errors.Is(err, status) || found.Offset != offset:
		t.Errorf("%s: %v, and not %v at %d", what, err, status, offset)
	case found.Status.Error() == "" || strings.Contains(err.Error(), "unknown status"):
		t.Errorf("the status %d has no sentence", status)
	}
}

func same(t *testing.T, what string, found, wanted any) {
	t.Helper()
	if !reflect.DeepEqual(found, wanted) {
		t.Errorf("%s: %#v, and not %#v", what, found, wanted)
	}
}

// valueText returns the text of a value as test/cases.py writes it.
func valueText(value any) string {
	switch it := value.(type) {
	case nil:
		return "n"
	case bool:
		return map[bool]string{false: "f", true: "t"}[it]
	case float64:
		return "d" + fmt.Sprintf("%016x", binary.BigEndian.Uint64(binary.BigEndian.AppendUint64(nil, math.Float64bits(it))))
	case string:
		return "s" + hex.EncodeToString([]byte(it))
	case []byte:
		return "b" + hex.EncodeToString(it)
	case Cid:
		return "l" + hex.EncodeToString(it.Bytes())
	case []any:
		parts := make([]string, len(it))
		for at := range it {
			parts[at] = valueText(it[at])
		}
		return "[" + strings.Join(parts, ",") + "]"
	case map[string]any:
		parts := []string{}
		for key, value := range it {
			parts = append(parts, hex.EncodeToString([]byte(key))+":"+valueText(value))
		}
		sort.Strings(parts)
		return "{" + strings.Join(parts, ",") + "}"
	}
	return fmt.Sprintf("i%v", value)
}

func hexes(cids []Cid) []string {
	found := []string{}
	for _, cid := range cids {
		found = append(found, hex.EncodeToString(cid.Bytes()))
	}
	return found
}

func checkBlockCase(t *testing.T, it randomCase, block []byte, status Status) {
	options := Options{MaxLevels: it.Levels, MaxValues: it.Values}
	if it.Levels == 0 {
		options.MaxLevels = -1
	}
	if it.Values == 0 {
		options.MaxValues = -1
	}
	sameError(t, "Check", options.Check(block), status, it.Offset)
	canonical, err := options.Canonicalize(block)
	sameError(t, "Canonicalize", err, status, it.Offset)
	links, err := options.Links(block)
	sameError(t, "Links", err, status, it.Offset)
	count, err := options.CountLinks(block)
	sameError(t, "CountLinks", err, status, it.Offset)
	positions, err := options.LinkPositions(block)
	sameError(t, "LinkPositions", err, status, it.Offset)
	text, err := options.ToJSON(block)
	if status != 0 || !errors.Is(err, ErrJSONReservedMap) {
		sameError(t, "ToJSON", err, status, it.Offset)
	}
	value, err := options.Decode(block)
	sameError(t, "Decode", err, status, it.Offset)
	_, _, err = options.Get(block, "")
	sameError(t, "Get", err, status, it.Offset)
	var typed any
	sameError(t, "Unmarshal", options.Unmarshal(block, &typed), status, it.Offset)
	if status != 0 {
		sameError(t, "CheckCanonical", options.CheckCanonical(block), status, it.Offset)
		return
	}
	same(t, "Canonicalize", hex.EncodeToString(canonical), it.Canonical)
	if it.Canonical == it.Input {
		same(t, "CheckCanonical", options.CheckCanonical(block), nil)
	} else {
		sameError(t, "CheckCanonical", options.CheckCanonical(block), ErrNotCanonical, -1)
	}
	if text != nil {
		same(t, "ToJSON", json.Valid(text), true)
		again, err := FromJSON(text)
		same(t, "FromJSON", err, nil)
		same(t, "FromJSON", hex.EncodeToString(again), it.Canonical)
	}
	same(t, "Links", hexes(links), it.Links)
	same(t, "CountLinks", count, len(it.Links))
	for at, position := range positions {
		same(t, "LinkPositions", [2]int{position.Offset, position.Len}, it.Positions[at])
	}
	byName := statuses(t)
	for _, row := range it.Paths {
		part, rest, err := options.Get(block, row.Path)
		sameError(t, "Get "+row.Path, err, byName[row.Error], -1)
		same(t, "Get "+row.Path, [2]string{string(part), rest}, [2]string{string(block[row.Span[0]:row.Span[1]]), row.Rest})
	}
	same(t, "Decode", valueText(value), it.Value)
	same(t, "Unmarshal", valueText(typed), it.Value)
	encoded, err := Encode(value)
	sameError(t, "Encode", err, 0, -1)
	same(t, "Encode", hex.EncodeToString(encoded), it.Canonical)
	var w writer
	if w.any(value, defaultLevels) != nil || w.size != len(encoded) {
		t.Errorf("Encode makes room for %d bytes, and needs %d", w.size, len(encoded))
	}
}

func checkCidCase(t *testing.T, it randomCase, encoded []byte, status Status) {
	cid, err := CidFromBytes(encoded)
	sameError(t, "CidFromBytes", err, status, it.Offset)
	if status != 0 {
		return
	}
	digest := hex.EncodeToString(cid.Digest())
	parts := []string{fmt.Sprint(cid.Version()), fmt.Sprint(cid.Codec()), fmt.Sprint(cid.HashCode()), digest}
	same(t, "parts", parts, it.Parts)
	text, err := cid.StringOfBase(Base(it.Base[0]))
	same(t, "StringOfBase", text, it.Text)
	same(t, "StringOfBase", err, nil)
	parsed, err := ParseCid(it.Text)
	same(t, "ParseCid", parsed, cid)
	same(t, "ParseCid", err, nil)
	// No other text is that of a CID in this base.
	if other, err := ParseCid(it.Changed); err == nil {
		base := Base(it.Changed[0])
		if other.Version() == 0 {
			base = Base58BTC
		}
		text, _ := other.StringOfBase(base)
		same(t, "a changed text", text, it.Changed)
	}
}

func checkPbCase(t *testing.T, it randomCase, block []byte, status Status) {
	node, err := DecodePb(block)
	sameError(t, "DecodePb", err, status, it.Offset)
	links, err := BlockLinks(NewCid(DagPb, block), block)
	sameError(t, "BlockLinks", err, status, it.Offset)
	if status != 0 {
		return
	}
	same(t, "Data", node.Data == nil, it.Data == nil)
	if it.Data != nil {
		same(t, "Data", hex.EncodeToString(node.Data), *it.Data)
	}
	same(t, "Links", len(node.Links), len(it.Node))
	for at, link := range node.Links {
		same(t, "BlockLinks", links[at], link.Hash)
		found := [3]*string{new(string)}
		*found[0] = hex.EncodeToString(link.Hash.Bytes())
		if link.HasName {
			found[1] = new(string)
			*found[1] = hex.EncodeToString([]byte(link.Name))
		}
		if link.HasTsize {
			found[2] = new(string)
			*found[2] = fmt.Sprint(link.Tsize)
		}
		same(t, "Links", found, it.Node[at])
	}
}

func checkCarCase(t *testing.T, it randomCase, car []byte, status Status) {
	for name, source := range map[string]io.Reader{
		"whole":         bytes.NewReader(car),
		"by halves":     iotest.HalfReader(bytes.NewReader(car)),
		"by bytes":      iotest.OneByteReader(bytes.NewReader(car)),
		"with an error": iotest.DataErrReader(bytes.NewReader(car)),
	} {
		r, err := CarOptions{MaxHeader: it.Limit, MaxSection: it.SectionLimit}.OpenCar(source)
		if err != nil || it.Version == 0 {
			sameError(t, "OpenCar "+name, err, status, it.Offset)
			continue
		}
		same(t, "Version", r.Version(), it.Version)
		same(t, "Roots", hexes(r.Roots()), it.Roots)
		sections := [][2]string{}
		r.Blocks()(func(cid Cid, block []byte) bool {
			sections = append(sections, [2]string{hex.EncodeToString(cid.Bytes()), hex.EncodeToString(block)})
			return true
		})
		same(t, "sections "+name, sections, it.Sections)
		sameError(t, "Next "+name, r.Err(), status, it.Offset)
		_, _, again := r.Next()
		same(t, "Next again", again == r.err && again != nil, true)
	}
}

func checkDigestCase(t *testing.T, it randomCase, block []byte, status Status) {
	cid, err := CidFromBytes(unhex(t, it.Cid))
	if err != nil {
		t.Fatal(err)
	}
	sameError(t, "Verify", cid.Verify(block), status, it.Offset)
}
