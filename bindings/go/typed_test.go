package kombilad

import (
	"errors"
	"fmt"
	"math"
	"math/big"
	"reflect"
	"strings"
	"testing"
	"time"
)

type text string

type person struct {
	Name    string   `ipld:"name"`
	Age     uint8    `ipld:"age"`
	Hobbies []string `ipld:"hobbies"`
	IsCool  bool     `ipld:"is_cool"`
	Link    Cid      `ipld:"link"`
}

// roundTrip checks that a value is encoded as this block, and the block is decoded to this value.
func roundTrip(t *testing.T, value any, digits string) {
	t.Helper()
	block, err := Marshal(value)
	same(t, fmt.Sprintf("Marshal %T", value), err, nil)
	same(t, fmt.Sprintf("Marshal %T", value), fmt.Sprintf("%x", block), digits)
	read := reflect.New(reflect.TypeOf(value))
	same(t, fmt.Sprintf("Unmarshal %T", value), Unmarshal(block, read.Interface()), nil)
	same(t, fmt.Sprintf("Unmarshal %T", value), read.Elem().Interface(), value)
}

const linkDigits = "d82a450001550000"

func TestEachTypeHasItsForm(t *testing.T) {
	short := cidOfText(t, "bafkqaaa")
	bob := person{"Bob", 52, []string{"geography", "knitting"}, true, short}
	roundTrip(t, bob, "a563616765183464"+"6c696e6b"+linkDigits+"646e616d6563426f6267686f62626965738269"+
		"67656f67726170687968"+"6b6e697474696e67"+"6769735f636f6f6cf5")
	roundTrip(t, struct{}{}, "a0")
	roundTrip(t, true, "f5")
	roundTrip(t, -1, "20")
	roundTrip(t, int8(-128), "387f")
	roundTrip(t, uint16(65535), "19ffff")
	roundTrip(t, int64(math.MinInt64), "3b7fffffffffffffff")
	roundTrip(t, uint64(math.MaxUint64), "1bffffffffffffffff")
	roundTrip(t, float32(1.5), "fb3ff8000000000000")
	roundTrip(t, 1.5, "fb3ff8000000000000")
	roundTrip(t, text("ö"), "62c3b6")
	roundTrip(t, []byte("ab"), "426162")
	roundTrip(t, [2]byte{1, 2}, "420102")
	roundTrip(t, []byte{}, "40")
	roundTrip(t, []byte(nil), "f6")
	roundTrip(t, []string(nil), "f6")
	roundTrip(t, []string{}, "80")
	roundTrip(t, map[string]int(nil), "f6")
	roundTrip(t, map[text]int{"bb": 1, "a": 2, "": 3}, "a3600361610262626201")
	roundTrip(t, [2]int{1, 2}, "820102")
	roundTrip(t, (*int)(nil), "f6")
	roundTrip(t, short, linkDigits)
	roundTrip(t, []*Cid{&short, nil}, "82"+linkDigits+"f6")
	roundTrip(t, []any{nil, true, "a", int64(1)}, "84f6f5616101")
	low, _ := new(big.Int).SetString("-18446744073709551616", 10)
	roundTrip(t, low, "3bffffffffffffffff")
	roundTrip(t, []big.Int{*big.NewInt(5)}, "8105")
	for _, value := range []any{new(big.Int).Sub(low, big.NewInt(1)), new(big.Int).Lsh(big.NewInt(1), 64)} {
		_, err := Marshal([]any{1, value})
		sameError(t, "big", err, ErrRange, -1)
		same(t, "big", err.Error(), "kombilad: [1]: an integer must be from -2^64 to 2^64-1")
	}
}

type inner struct {
	A int `ipld:"a"`
	B int `ipld:"b"`
	C int `ipld:"c"`
}

type Named struct {
	D int `ipld:"d"`
}

type hidden struct {
	E int
}

type outer struct {
	inner
	*Named
	Sub    inner  `ipld:"sub"`
	B      string `ipld:"b"`
	Left   int    `ipld:"-"`
	Dash   int    `ipld:"-,"`
	Plain  int
	hidden int
	Empty  []int          `ipld:",omitempty"`
	None   *int           `ipld:"none,omitempty"`
	Of     Cid            `ipld:"of,omitempty"`
	Map    map[string]int `ipld:"map,omitempty"`
	Zero   float64        `ipld:"zero,omitempty"`
	Struct struct{}       `ipld:"struct,omitempty"`
}

func TestFieldsOfStructs(t *testing.T) {
	value := outer{inner: inner{A: 1, B: 2, C: 3}, Named: &Named{4}, B: "b", Left: 5, Dash: 6, Plain: 7, hidden: 8}
	block, err := Marshal(value)
	same(t, "Marshal", err, nil)
	found, err := Decode(block)
	same(t, "Decode", err, nil)
	sub := map[string]any{"a": int64(0), "b": int64(0), "c": int64(0)}
	same(t, "Decode", found, map[string]any{
		"a": int64(1), "b": "b", "c": int64(3), "d": int64(4), "sub": sub, "-": int64(6),
		"Plain": int64(7), "struct": map[string]any{},
	})
	same(t, "CheckCanonical", CheckCanonical(block), nil)
	var read outer
	same(t, "Unmarshal", Unmarshal(block, &read), nil)
	value.inner.B, value.Left, value.hidden = 0, 0, 0
	same(t, "Unmarshal", read, value)
	value.Named = nil
	block, err = Marshal(&value)
	same(t, "Marshal", err, nil)
	same(t, "no embedded struct", errors.Is(Unmarshal(block, &read), ErrType), false)

	type one struct{ X, Y int }
	type other struct{ X int }
	type both struct {
		one
		other
		*hidden
	}
	block, err = Marshal(both{one{1, 2}, other{3}, &hidden{4}})
	same(t, "fields that hide one another", fmt.Sprintf("%x %v", block, err), "a2614504615902 <nil>")
	err = Unmarshal(block, &both{})
	sameError(t, "an embedded pointer", err, ErrUnsupportedType, -1)
	same(t, "an embedded pointer", err.Error(), "kombilad: E: cannot set the embedded pointer to the unexported kombilad.hidden")
	same(t, "an embedded pointer", Unmarshal(block, &both{hidden: &hidden{}}), nil)
}

func TestErrorsHaveThePath(t *testing.T) {
	type post struct {
		Author string           `ipld:"author"`
		Tags   map[string]uint8 `ipld:"tags"`
		Pair   [2]int8          `ipld:"pair"`
		Hash   [2]byte          `ipld:"hash"`
		Of     *Cid             `ipld:"of"`
		Score  float32          `ipld:"score"`
		Made   func()           `ipld:"made"`
	}
	type feed struct {
		Posts []post `ipld:"posts"`
	}
	in := func(post map[string]any) map[string]any {
		return map[string]any{"posts": []any{map[string]any{}, post}}
	}
	for _, row := range []struct {
		value  map[string]any
		status Status
		text   string
	}{
		{in(map[string]any{"author": 7}), ErrType, "posts[1].author: an integer does not fit the Go type string"},
		{in(map[string]any{"tags": map[string]any{"a b": 256}}), ErrRange, `posts[1].tags["a b"]: the integer 256 is out of range for the Go type uint8`},
		{in(map[string]any{"tags": map[string]any{"": -1}}), ErrRange, `posts[1].tags[""]: the integer -1 is out of range for the Go type uint8`},
		{in(map[string]any{"pair": []any{1, -129}}), ErrRange, "posts[1].pair[1]: the integer -129 is out of range for the Go type int8"},
		{in(map[string]any{"pair": []any{1}}), ErrLength, "posts[1].pair: a list of length 1 does not fit the Go type [2]int8"},
		{in(map[string]any{"hash": []byte{1}}), ErrLength, "posts[1].hash: bytes of length 1 does not fit the Go type [2]uint8"},
		{in(map[string]any{"of": []byte{1, 0x55, 0, 0}}), ErrType, "posts[1].of: bytes does not fit the Go type kombilad.Cid"},
		{in(map[string]any{"score": 1e300}), ErrRange, "posts[1].score: the float 1e+300 is out of range for the Go type float32"},
		{in(map[string]any{"score": 1<<24 + 1}), ErrRange, "posts[1].score: the integer 16777217 is out of range for the Go type float32"},
		{in(map[string]any{"made": 1}), ErrUnsupportedType, "posts[1].made: the Go type func() has no form in DAG-CBOR"},
		{in(map[string]any{"other": 1}), ErrUnknownField, "posts[1]: the Go type kombilad.post has no field for the key other"},
		{map[string]any{"posts": true}, ErrType, "posts: a boolean does not fit the Go type []kombilad.post"},
	} {
		block, err := Encode(row.value)
		same(t, row.text, err, nil)
		var read feed
		err = Options{DisallowUnknownFields: true}.Unmarshal(block, &read)
		sameError(t, row.text, err, row.status, -1)
		same(t, row.text, fmt.Sprint(err), "kombilad: "+row.text)
		if row.status == ErrUnknownField {
			same(t, "Unmarshal", Unmarshal(block, &read), nil)
		}
		var failure *Error
		if errors.As(err, &failure) && failure.Type == nil {
			t.Errorf("%s: no type", row.text)
		}
	}
	type deep struct {
		A []map[string]any
	}
	long := any(math.NaN())
	for level := 0; level < 1000; level++ {
		long = []any{long}
	}
	for _, row := range []struct {
		value  any
		status Status
		text   string
	}{
		{deep{A: []map[string]any{{}, {"b": []any{1, math.NaN()}}}}, ErrValueFloat, "A[1].b[1]: a float is NaN or an infinity"},
		{[]any{1, []any{}, []any{1, 2, math.Inf(-1)}, 3}, ErrValueFloat, "[2][2]: a float is NaN or an infinity"},
		{map[string]any{"x": map[string]any{"y": "\xff"}}, ErrValueUTF8, "x.y: a string or a key is not UTF-8"},
		{[]any{map[string]any{"\xff": 1}}, ErrValueUTF8, `[0]["\xff"]: a string or a key is not UTF-8`},
		{"\xff", ErrValueUTF8, "a string or a key is not UTF-8"},
		{map[string]any{"x": make(chan int)}, ErrUnsupportedType, "x: the Go type chan int has no form in DAG-CBOR"},
		{map[int]int{}, ErrUnsupportedType, "the Go type map[int]int has no form in DAG-CBOR"},
		{[]any{complex(1, 1)}, ErrUnsupportedType, "[0]: the Go type complex128 has no form in DAG-CBOR"},
		{struct{ Z func() }{}, ErrUnsupportedType, "Z: the Go type func() has no form in DAG-CBOR"},
		{long, ErrValueFloat, strings.Repeat("[0]", 32) + "[...]" + strings.Repeat("[0]", 33) + ": a float is NaN or an infinity"},
	} {
		_, err := Marshal(row.value)
		sameError(t, row.text, err, row.status, -1)
		same(t, row.text, fmt.Sprint(err), "kombilad: "+row.text)
	}
	for _, target := range []any{nil, person{}, (*person)(nil)} {
		sameError(t, "Unmarshal", Unmarshal([]byte{0xa0}, target), ErrNotPointer, -1)
	}
	sameError(t, "Unmarshal", Unmarshal([]byte{0x18, 0x17}, new(int)), ErrBlockNotShortest, 0)
}

func TestNullAndWhatIsThere(t *testing.T) {
	seven := 7
	value := struct {
		A int
		B *int
		C []int
		D map[string]int
		E any
		F string
		G *int
	}{1, &seven, []int{1}, map[string]int{"a": 1}, 1, "f", nil}
	block, err := Encode(map[string]any{"A": nil, "B": nil, "C": nil, "D": nil, "E": nil, "F": nil, "G": 8})
	same(t, "Encode", err, nil)
	same(t, "Unmarshal", Unmarshal(block, &value), nil)
	same(t, "values", []any{value.A, value.B == nil, value.C == nil, value.D == nil, value.E, value.F, *value.G},
		[]any{1, true, true, true, nil, "f", 8})
	object := map[string]*[]int{"kept": nil, "a": {1}}
	same(t, "Unmarshal", Unmarshal(unhex(t, "a161618102"), &object), nil)
	same(t, "a map", []any{len(object), *object["a"]}, []any{2, []int{2}})
	type pair struct{ A, B int }
	var pairs map[string]pair
	same(t, "Unmarshal", Unmarshal(unhex(t, "a36161a1614101"+"6162a1614202"+"6163f6"), &pairs), nil)
	same(t, "a value after another", pairs, map[string]pair{"a": {A: 1}, "b": {B: 2}, "c": {}})
	for _, digits := range []string{"1b8000000000000000", "1bffffffffffffffff", "3b8000000000000000", "3bffffffffffffffff"} {
		for _, target := range []any{new(int64), new(int), new(int8)} {
			sameError(t, digits, Unmarshal(unhex(t, digits), target), ErrRange, -1)
		}
	}
	var exact [2]float64
	same(t, "integers as floats", Unmarshal(unhex(t, "82021b0020000000000000"), &exact), nil)
	same(t, "integers as floats", exact, [2]float64{2, 1 << 53})
}

// moment is a time in seconds.
type moment struct{ time.Time }

func (m moment) MarshalIPLD() (any, error) {
	if m.IsZero() {
		return nil, errors.New("no time")
	}
	return m.Unix(), nil
}

func (m *moment) UnmarshalIPLD(value any) error {
	seconds, isInteger := value.(int64)
	if !isInteger {
		return fmt.Errorf("not a time: %v", value)
	}
	m.Time = time.Unix(seconds, 0).UTC()
	return nil
}

// addressed has its method on the pointer.
type addressed struct{ X int }

func (a *addressed) MarshalIPLD() (any, error) { return a.X, nil }

func TestTypesWithMethods(t *testing.T) {
	type event struct {
		At    moment
		Later *moment
	}
	at := moment{time.Unix(1363896240, 0).UTC()}
	roundTrip(t, []event{{at, nil}, {at, &at}}, "82a26241741a514b67b0654c61746572f6a26241741a514b67b0654c617465721a514b67b0")
	var read event
	err := Unmarshal(unhex(t, "a16241746161"), &read)
	sameError(t, "UnmarshalIPLD", err, ErrCustom, -1)
	same(t, "UnmarshalIPLD", err.Error(), "kombilad: At: not a time: a")
	_, err = Marshal(event{})
	same(t, "MarshalIPLD", fmt.Sprint(err), "kombilad: At: no time")
	same(t, "Unwrap", errors.Unwrap(err).Error(), "no time")
	for _, value := range []any{&addressed{5}, &[]addressed{{5}}, &struct{ A addressed }{addressed{5}}} {
		block, err := Marshal(value)
		same(t, "Marshal", []any{block[len(block)-1], err}, []any{byte(5), nil})
	}
	_, err = Marshal(addressed{5})
	same(t, "Marshal", err, nil)
	block, err := Marshal([]Marshaler{nil, &addressed{5}, (*addressed)(nil)})
	same(t, "an interface", []any{block, err}, []any{[]byte{0x83, 0xf6, 0x05, 0xf6}, nil})
}

// Each Go type accepts null and values of its kinds, but no others.
func TestOtherKindsOfValuesDoNotFit(t *testing.T) {
	kinds := map[string][]byte{
		"boolean": {0xf5}, "integer": {0x01}, "float": unhex(t, "fb3ff8000000000000"), "string": {0x60},
		"bytes": {0x40}, "link": unhex(t, linkDigits), "list": {0x80}, "map": {0xa0},
	}
	for _, row := range []struct {
		target any
		fits   string
	}{
		{new(bool), "boolean"}, {new(int8), "integer"}, {new(uint), "integer"}, {new(big.Int), "integer"},
		{new(float32), "integer float"}, {new(float64), "integer float"}, {new(string), "string"},
		{new([]byte), "bytes"}, {new([0]byte), "bytes"}, {new(Cid), "link"}, {new([]int), "list"},
		{new([0]int), "list"}, {new(map[string]int), "map"}, {new(struct{}), "map"}, {new(*bool), "boolean"},
		{new(any), "boolean integer float string bytes link list map"},
	} {
		for kind, block := range kinds {
			err := Unmarshal(block, row.target)
			if strings.Contains(row.fits, kind) {
				same(t, fmt.Sprintf("%s in %T", kind, row.target), err, nil)
			} else {
				sameError(t, fmt.Sprintf("%s in %T", kind, row.target), err, ErrType, -1)
			}
		}
		same(t, "null", Unmarshal([]byte{0xf6}, row.target), nil)
	}
	for _, target := range []any{new(chan int), new(map[int]int), new(error), new(complex64), new(func())} {
		sameError(t, fmt.Sprintf("%T", target), Unmarshal([]byte{0x01}, target), ErrUnsupportedType, -1)
	}
}

type left struct{ hiddenTwice }

type right struct{ hiddenTwice }

type hiddenTwice struct{ X, Y int }

func TestEmbeddedTypes(t *testing.T) {
	short := cidOfText(t, "bafkqaaa")
	block, err := Marshal(struct {
		left
		right
		Cid
		*big.Int
		Z    int
		unit `ipld:"unit"`
	}{Cid: short, Z: 1})
	same(t, "Marshal", err, nil)
	value, err := Decode(block)
	same(t, "Decode", []any{value, err}, []any{map[string]any{"Cid": short, "Int": nil, "Z": int64(1)}, nil})
	for _, value := range []any{(*big.Int)(nil), []byte(nil), []any(nil), map[string]any(nil), (*person)(nil), nil} {
		block, err := Encode(value)
		same(t, fmt.Sprintf("%T", value), []any{block, err}, []any{[]byte{0xf6}, nil})
	}
	same(t, "an array", fmt.Sprint(Marshal([3]uint8{1, 2, 3})), "[67 1 2 3] <nil>")
	same(t, "a big.Int", fmt.Sprint(Marshal(*big.NewInt(-1))), "[32] <nil>")
}

type unit struct{}
