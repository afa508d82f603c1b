package kombilad

import (
	"bytes"
	"encoding/binary"
	"errors"
	"io"
	"math"
	"os"
	"strconv"
	"strings"
	"testing"
	"testing/iotest"
	"time"
)

func framed(parts ...[]byte) []byte {
	content := bytes.Join(parts, nil)
	return append(binary.AppendUvarint(nil, uint64(len(content))), content...)
}

// carOf returns a CAR of version 1 with raw blocks.
func carOf(roots []Cid, blocks ...[]byte) []byte {
	header, _ := Encode(map[string]any{"roots": append([]Cid{}, roots...), "version": 1})
	car := framed(header)
	for _, block := range blocks {
		car = append(car, framed(NewCid(Raw, block).Bytes(), block)...)
	}
	return car
}

// version2Of returns a CAR of version 2 with bytes before the payload and after it.
func version2Of(payload []byte, before int, after string) []byte {
	car := append([]byte("\x0a\xa1\x67version\x02"), make([]byte, 16)...)
	for _, number := range []int{51 + before, len(payload), 0} {
		car = binary.LittleEndian.AppendUint64(car, uint64(number))
	}
	return append(append(append(car, make([]byte, before)...), payload...), after...)
}

func TestLargeCars(t *testing.T) {
	blocks := [][]byte{{}, {1}, bytes.Repeat([]byte("a"), 70_000), bytes.Repeat([]byte("b"), 1_000_000), {2}}
	roots := make([]Cid, 70_000)
	for at := range roots {
		roots[at] = NewCid(Raw, []byte{byte(at), byte(at >> 8), byte(at >> 16)})
	}
	car := carOf(roots, blocks...)
	for name, bytesOf := range map[string][]byte{
		"version 1": car, "version 2": version2Of(car, 0, ""), "padding": version2Of(car, 3_000_000, "an index"),
	} {
		for _, source := range []io.Reader{
			bytes.NewReader(bytesOf), iotest.HalfReader(bytes.NewReader(bytesOf)), iotest.OneByteReader(bytes.NewReader(bytesOf)),
		} {
			r, err := CarOptions{Verify: true}.OpenCar(source)
			if err != nil {
				t.Fatal(name, err)
			}
			same(t, name, r.Roots(), roots)
			found := [][]byte{}
			r.Blocks()(func(_ Cid, block []byte) bool {
				found = append(found, block)
				return true
			})
			same(t, name, r.Err(), nil)
			same(t, name, len(found), len(blocks))
			for at := range found {
				same(t, name, bytes.Equal(found[at], blocks[at]), true)
			}
		}
	}
}

func TestABlockComesOnceItIsThere(t *testing.T) {
	cid := NewCid(Raw, []byte("block"))
	shortest := framed(cidOfText(t, "bafkqaaa").Bytes()) // five bytes, and nothing follows
	for _, header := range [][]byte{carOf([]Cid{cid}), version2Of(carOf([]Cid{cid}, []byte("block"), nil), 9, "")[:51+9+59]} {
		reader, writer := io.Pipe()
		go func() {
			_, _ = writer.Write(header)
			for _, part := range [][]byte{framed(cid.Bytes(), []byte("block")), shortest} {
				_, _ = writer.Write(part)
			}
		}()
		done := make(chan error)
		go func() {
			r, err := OpenCar(reader)
			for count := 0; err == nil && count < 2; count++ {
				_, _, err = r.Next()
			}
			done <- err
		}()
		select {
		case err := <-done:
			same(t, "Next", err, nil)
		case <-time.After(10 * time.Second):
			t.Fatal("a reader waits for bytes after a section")
		}
		_ = writer.Close()
	}
}

// TestBytesThatComeOneAtATime reads from a pipe that stays open. The bytes of a part arrive one at
// a time, after the reader has returned the part before it.
func TestBytesThatComeOneAtATime(t *testing.T) {
	blocks := [][]byte{nil, []byte("block"), bytes.Repeat([]byte("a"), 300), bytes.Repeat([]byte("b"), 70_000), {1}}
	payload := carOf([]Cid{NewCid(Raw, nil)}, blocks...)
	front := len(carOf([]Cid{NewCid(Raw, nil)}))
	for version, car := range map[int][]byte{1: payload, 2: version2Of(payload, 70_000, "an index")} {
		before := front
		if version == 2 {
			before += 51 + 70_000
		}
		reader, writer, err := os.Pipe()
		if err != nil {
			t.Fatal(err)
		}
		type result struct {
			block []byte
			err   error
		}
		results := make(chan result)
		go func() {
			defer close(results)
			r, err := CarOptions{Verify: true}.OpenCar(reader)
			results <- result{nil, err}
			for err == nil {
				var block []byte
				_, block, err = r.Next()
				results <- result{block, err}
			}
		}()
		at := 0
		returns := func(count int, block []byte, wanted error) {
			for end := at + count; at < end; at++ {
				if _, err := writer.Write(car[at : at+1]); err != nil {
					t.Fatal(err)
				}
			}
			select {
			case found := <-results:
				same(t, "result", []any{string(found.block), found.err}, []any{string(block), wanted})
			case <-time.After(20 * time.Second):
				t.Fatalf("version %d: the reader waits for byte %d", version, at)
			}
		}
		returns(before, nil, nil)
		for _, block := range blocks {
			returns(len(framed(NewCid(Raw, block).Bytes(), block)), block, nil)
		}
		if version == 1 {
			_ = writer.Close()
		}
		returns(0, nil, io.EOF)
		_, _ = writer.Close(), reader.Close()
	}
}

func TestALongBlockIsNotCopied(t *testing.T) {
	car := carOf(nil, make([]byte, 8<<20), []byte("block"))
	r, err := OpenCar(bytes.NewReader(car))
	same(t, "OpenCar", err, nil)
	took := allocated(func() {
		_, block, err := r.Next()
		same(t, "Next", []any{len(block), cap(block), err}, []any{8 << 20, 8 << 20, nil})
	})
	if took > 17<<20 {
		t.Errorf("a block of 8 MiB takes %d bytes", took)
	}
	_, block, err := r.Next()
	same(t, "Next", []any{string(block), err}, []any{"block", nil})
}

func TestCarErrors(t *testing.T) {
	cid := NewCid(Raw, []byte("block"))
	car := carOf([]Cid{cid}, []byte("block"), []byte("another"))
	broken := errors.New("broken")
	_, err := OpenCar(iotest.ErrReader(broken))
	same(t, "OpenCar", []any{errors.Is(err, broken), err.Error()}, []any{true, "kombilad: cannot read the CAR: broken"})
	_, err = OpenCar(stuck{})
	same(t, "OpenCar", errors.Is(err, io.ErrNoProgress), true)
	for cut := 59; cut < len(car); cut++ {
		source := func() io.Reader { return io.MultiReader(bytes.NewReader(car[:cut]), iotest.ErrReader(broken)) }
		once := io.MultiReader(&brokenOnce{car[:cut], broken}, bytes.NewReader(car[cut:]))
		for _, source := range []io.Reader{source(), iotest.DataErrReader(source()), once} {
			r, err := OpenCar(source)
			same(t, "OpenCar", err, nil)
			count := 0
			for ; err == nil; count++ {
				_, _, err = r.Next()
			}
			same(t, "blocks", count-1, map[bool]int{false: 0, true: 1}[cut >= 59+42])
			same(t, "Next", errors.Is(err, broken), true)
			_, _, again := r.Next()
			same(t, "Next", again, err)
		}
	}
	r, err := CarOptions{MaxSection: 30}.OpenCar(bytes.NewReader(car))
	same(t, "OpenCar", err, nil)
	_, _, err = r.Next()
	sameError(t, "Next", err, ErrCarTooLong, 59)
	same(t, "Next", err.Error(), "kombilad: a header or a section is longer than the limit, at byte 59")
	_, err = CarOptions{MaxHeader: 20}.OpenCar(bytes.NewReader(car))
	sameError(t, "OpenCar", err, ErrCarTooLong, 0)
	_, err = CarOptions{MaxHeader: 100}.OpenCar(bytes.NewReader(version2Of(car, 1_000_000, "")))
	sameError(t, "OpenCar", err, ErrCarTooLong, placeOfPayload)

	for _, options := range []CarOptions{{MaxHeader: -1}, {MaxHeader: math.MaxInt, MaxSection: -1}} {
		r, err := options.OpenCar(bytes.NewReader(car))
		if err == nil {
			_, _, err = r.Next()
		}
		same(t, "negative limits", errors.Is(err, ErrCarTooLong), true)
	}
	r, err = CarOptions{MaxHeader: math.MaxInt, MaxSection: math.MaxInt}.OpenCar(bytes.NewReader(version2Of(car, 300_000, "")))
	same(t, "OpenCar", err, nil)
	_, _, err = r.Next()
	same(t, "Next", err, nil)

	car[len(car)-1] ^= 1
	r, err = CarOptions{Verify: true}.OpenCar(bytes.NewReader(car))
	same(t, "OpenCar", err, nil)
	first, block, err := r.Next()
	same(t, "Next", []any{first, string(block), err, r.Offset()}, []any{cid, "block", nil, int64(59 + 42)})
	block = append(block, "and more"...)
	_, _, err = r.Next()
	sameError(t, "Next", err, ErrWrongDigest, int64(len(car)-len("another")))
	sameError(t, "Err", r.Err(), ErrWrongDigest, int64(len(car)-len("another")))
	same(t, "block", string(block), "blockand more")
}

func TestHeadersAndSectionsThatAreInvalid(t *testing.T) {
	header := string(carOf(nil))
	many := strings.Repeat("\xff", 9)
	for _, row := range []struct {
		car    string
		status Status
		offset int
	}{
		{"", ErrCarUnexpectedEnd, 0},
		{"\x00", ErrCarEmpty, 0},
		{"\x80\x00", ErrCarLengthNotShortest, 1},
		{many + "\xff\x00", ErrCarLengthTooLarge, 9},
		{"\x01\x01", ErrCarNotAHeader, 1},
		{"\x01\x81", ErrBlockEnd, 1},
		{"\x80\x80\x80\x80\x10", ErrCarTooLong, 0},
		{header + "\x00", ErrCarEmpty, len(header)},
		{header + "\x81\x00", ErrCarLengthNotShortest, len(header) + 1},
		{header + many + "\x02", ErrCarLengthTooLarge, len(header) + 9},
		{header + many + "\xff\x00", ErrCarLengthTooLarge, len(header) + 9},
		{header + many + "\x01", ErrCarTooLong, len(header)},
		{header + "\x01\x00", ErrCidExplicitVersion0, len(header) + 1},
		{header + "\x05\x01\x55", ErrCarUnexpectedEnd, len(header) + 3},
	} {
		r, err := OpenCar(strings.NewReader(row.car))
		if err == nil {
			_, _, err = r.Next()
		}
		sameError(t, strconv.Quote(row.car), err, row.status, int64(row.offset))
	}
}

func TestALengthTakesNoMemory(t *testing.T) {
	car := append(carOf(nil), binary.AppendUvarint(nil, 1<<30)...)
	took := allocated(func() {
		r, err := CarOptions{MaxSection: 1<<30 + 10}.OpenCar(bytes.NewReader(append(car, 1, 2, 3)))
		same(t, "OpenCar", err, nil)
		_, _, err = r.Next()
		sameError(t, "Next", err, ErrCarUnexpectedEnd, int64(len(car)+3))
	})
	if took > 1<<20 {
		t.Errorf("a length takes %d bytes", took)
	}
}

// brokenOnce is a reader that returns its error once, with its last bytes.
type brokenOnce struct {
	bytes []byte
	err   error
}

func (b *brokenOnce) Read(to []byte) (count int, err error) {
	count = copy(to, b.bytes)
	b.bytes = b.bytes[count:]
	if len(b.bytes) == 0 {
		err, b.err = b.err, io.EOF
	}
	return count, err
}

// stuck is a reader that reads nothing and has no error.
type stuck struct{}

func (stuck) Read([]byte) (int, error) { return 0, nil }
