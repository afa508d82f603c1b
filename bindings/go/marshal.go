package kombilad

import (
	"encoding/binary"
	"math"
	"math/big"
	"reflect"
	"sync"
)

// Marshaler is a type that is encoded as another value. MarshalIPLD returns that value, of any type
// that [Marshal] encodes.
type Marshaler interface {
	MarshalIPLD() (any, error)
}

// Encode returns the canonical block of DAG-CBOR of a value. It takes the values that [Decode]
// returns. It is Marshal by another name, so it takes other Go values too.
func Encode(value any) ([]byte, error) {
	return Options{}.Marshal(value)
}

// Marshal returns the canonical block of DAG-CBOR of a Go value. [Unmarshal] decodes it:
//
//   - null: nil, and a nil pointer, slice, map or interface
//   - a map: a struct, by the names or tags of its fields, and a map with keys of a string type
//   - bytes: a slice or an array of bytes
//   - a list: any other slice or array
//   - a link: Cid
//   - an integer from -2^64 to 2^64-1: all int and uint types, and big.Int
//   - a float of 64 bits: float32 and float64
//   - the value that MarshalIPLD returns: a type with this method
//
// A field with the option omitempty is left out if it is false, 0, an empty string, slice, map or
// array, a nil pointer or interface, or an undefined Cid.
//
// It fails with ErrUnsupportedType, ErrRange, ErrValueUTF8, ErrValueFloat, ErrUndefinedCid or
// ErrCustom, with the path of the part at fault. It fails with ErrTooDeep if lists and maps nest
// deeper than 1,024 levels, which they do if a value contains itself, and with ErrTooLong if a value
// has 2^32 bytes or parts, or more.
func Marshal(v any) ([]byte, error) {
	return Options{}.Marshal(v)
}

// Encode is like the function Encode, with another limit for levels.
func (o Options) Encode(value any) ([]byte, error) {
	return o.Marshal(value)
}

// Marshal is like the function Marshal, with another limit for levels.
func (o Options) Marshal(v any) ([]byte, error) {
	entries, data := entryBuffers.get(0), byteBuffers.get(0)
	w := writer{entries: (*entries)[:0], data: (*data)[:0]}
	err := w.any(v, min(o.levels(), recursiveLevels))
	var block []byte
	if err == nil {
		block, err = w.block()
	}
	*entries, *data = w.entries, w.data
	entryBuffers.put(entries)
	byteBuffers.put(data)
	return block, err.asError()
}

// writer writes the tape of a value. The C library encodes the tape as a block.
type writer struct {
	entries []entry
	data    []byte
	// size is the number of bytes of the block.
	size int
	// indirect is the number of open pointers and Marshalers. They are not levels of the block.
	indirect int
}

// maxIndirect is the limit for indirect. A value that nests to recursiveLevels, with a pointer and
// a Marshaler at each level, doesn't reach it. A value that contains itself only by pointers does.
const maxIndirect = 2*recursiveLevels + defaultLevels

// enter adds a pointer or a Marshaler to indirect. The caller subtracts it again.
func (w *writer) enter() *Error {
	if w.indirect == maxIndirect {
		return &Error{Status: ErrTooDeep, Offset: -1}
	}
	w.indirect++
	return nil
}

func (w *writer) block() ([]byte, *Error) {
	block, made := filled(make([]byte, w.size), func(out []byte) outcome {
		return callEncode(w.entries, w.data, out)
	})
	if made.status == 0 {
		return block, nil
	}
	err := &Error{Status: made.status, Offset: -1}
	if made.status != ErrNoMemory {
		w.locate(err, int(made.offset))
	}
	return nil, err
}

// locate adds the path of the entry at an index to an error.
func (w *writer) locate(err *Error, target int) {
	t := tape{block: w.data, entries: w.entries}
	var parts []string
	for at := 0; at < target && target < t.after(at); {
		ofMap := w.entries[at].kind == kindMap
		at++
		key, index := at, 0
		for ; ; index++ {
			if ofMap {
				key = at
				at++
			}
			if target < t.after(at) {
				break
			}
			at = t.after(at)
		}
		part := indexPart(index)
		if ofMap {
			part = keyPart(string(t.content(&w.entries[key])))
		}
		parts = append(parts, part)
		if ofMap && target == key {
			break
		}
	}
	for at := len(parts) - 1; at >= 0; at-- {
		err = err.within(parts[at])
	}
}

// headLen returns the number of bytes of a head in a block.
func headLen(argument uint64) int {
	switch {
	case argument < 24:
		return 1
	case argument < 1<<8:
		return 2
	case argument < 1<<16:
		return 3
	case argument < 1<<32:
		return 5
	}
	return 9
}

func (w *writer) simple(kind uint32) {
	w.size++
	w.entries = append(w.entries, entry{kind: kind})
}

func (w *writer) bool(value bool) {
	if value {
		w.simple(kindTrue)
	} else {
		w.simple(kindFalse)
	}
}

func (w *writer) unsigned(number uint64) {
	w.size += headLen(number)
	w.entries = append(w.entries, entry{kind: kindUnsigned, value: number})
}

func (w *writer) signed(number int64) {
	if number >= 0 {
		w.unsigned(uint64(number))
		return
	}
	w.size += headLen(uint64(^number))
	w.entries = append(w.entries, entry{kind: kindNegative, value: uint64(^number)})
}

func (w *writer) big(number *big.Int) *Error {
	switch {
	case number == nil:
		w.simple(kindNull)
		return nil
	case number.IsUint64():
		w.unsigned(number.Uint64())
		return nil
	}
	inverse := new(big.Int).Not(number)
	if !inverse.IsUint64() {
		detail := "an integer must be from -2^64 to 2^64-1"
		return &Error{Status: ErrRange, Offset: -1, Type: bigType, detail: detail}
	}
	w.size += headLen(inverse.Uint64())
	w.entries = append(w.entries, entry{kind: kindNegative, value: inverse.Uint64()})
	return nil
}

func (w *writer) float(number float64) {
	w.size += 9
	w.entries = append(w.entries, entry{kindFloat, 8, uint64(len(w.data))})
	var bits [8]byte
	binary.BigEndian.PutUint64(bits[:], math.Float64bits(number))
	w.data = append(w.data, bits[:]...)
}

// content writes the entry of a string, of bytes or of a key, before its bytes are written.
func (w *writer) content(kind uint32, length int) *Error {
	if uint64(length) > math.MaxUint32 {
		return &Error{Status: ErrTooLong, Offset: -1}
	}
	w.size += headLen(uint64(length)) + length
	w.entries = append(w.entries, entry{kind, uint32(length), uint64(len(w.data))})
	return nil
}

func (w *writer) string(kind uint32, text string) *Error {
	err := w.content(kind, len(text))
	if err == nil {
		w.data = append(w.data, text...)
	}
	return err
}

func (w *writer) bytes(bytes []byte) *Error {
	err := w.content(kindBytes, len(bytes))
	if err == nil {
		w.data = append(w.data, bytes...)
	}
	return err
}

func (w *writer) link(cid Cid) *Error {
	if !cid.Defined() {
		return &Error{Status: ErrUndefinedCid, Offset: -1, Type: cidType}
	}
	// The tag, the head and a zero byte come before a CID.
	w.size += 2 + headLen(uint64(len(cid.bytes)+1)) + 1 + len(cid.bytes)
	w.entries = append(w.entries, entry{kindLink, uint32(len(cid.bytes)), uint64(len(w.data))})
	w.data = append(w.data, cid.bytes...)
	return nil
}

// begin writes the entry of a list or a map and returns its index, for end.
func (w *writer) begin(kind uint32, left int) (int, *Error) {
	if left == 0 {
		return 0, &Error{Status: ErrTooDeep, Offset: -1}
	}
	w.entries = append(w.entries, entry{kind: kind})
	return len(w.entries) - 1, nil
}

func (w *writer) end(begin, count int) *Error {
	entries := len(w.entries) - begin
	if uint64(entries) > math.MaxUint32 {
		return &Error{Status: ErrTooLong, Offset: -1}
	}
	w.size += headLen(uint64(count))
	w.entries[begin].len = uint32(entries)
	w.entries[begin].value = uint64(count)
	return nil
}

// any writes a value that nests at most left levels. It doesn't use reflection for the types that
// Decode returns.
func (w *writer) any(value any, left int) *Error {
	switch value := value.(type) {
	case nil:
		w.simple(kindNull)
	case bool:
		w.bool(value)
	case int:
		w.signed(int64(value))
	case int64:
		w.signed(value)
	case uint64:
		w.unsigned(value)
	case float64:
		w.float(value)
	case string:
		return w.string(kindString, value)
	case Cid:
		return w.link(value)
	case []byte:
		if value == nil {
			w.simple(kindNull)
			return nil
		}
		return w.bytes(value)
	case *big.Int:
		return w.big(value)
	case []any:
		return w.list(value, left)
	case map[string]any:
		return w.object(value, left)
	default:
		v := reflect.ValueOf(value)
		return encoderOf(v.Type())(w, v, left)
	}
	return nil
}

func (w *writer) list(list []any, left int) *Error {
	if list == nil {
		w.simple(kindNull)
		return nil
	}
	begin, err := w.begin(kindList, left)
	if err != nil {
		return err
	}
	for index, item := range list {
		if err := w.any(item, left-1); err != nil {
			return err.within(indexPart(index))
		}
	}
	return w.end(begin, len(list))
}

func (w *writer) object(object map[string]any, left int) *Error {
	if object == nil {
		w.simple(kindNull)
		return nil
	}
	begin, err := w.begin(kindMap, left)
	if err != nil {
		return err
	}
	for key, value := range object {
		err := w.string(kindKey, key)
		if err == nil {
			err = w.any(value, left-1)
		}
		if err != nil {
			return err.within(keyPart(key))
		}
	}
	return w.end(begin, len(object))
}

// encoder writes a Go value that nests at most left levels.
type encoder func(w *writer, v reflect.Value, left int) *Error

var encoders sync.Map // of reflect.Type and encoder

func encoderOf(t reflect.Type) encoder {
	return cached(&encoders, t, func(made func() encoder) encoder {
		return func(w *writer, v reflect.Value, left int) *Error { return made()(w, v, left) }
	}, newEncoder)
}

func newEncoder(t reflect.Type) encoder {
	switch {
	case t == cidType:
		return func(w *writer, v reflect.Value, left int) *Error {
			return w.link(Cid{v.Field(0).String()})
		}
	case t == bigType:
		return encodeBig
	case t.Kind() != reflect.Interface && t.Implements(marshalerType):
		return encodeCustom
	case t.Kind() != reflect.Pointer && reflect.PointerTo(t).Implements(marshalerType):
		plain := newPlainEncoder(t)
		return func(w *writer, v reflect.Value, left int) *Error {
			if v.CanAddr() {
				return encodeCustom(w, v.Addr(), left)
			}
			return plain(w, v, left)
		}
	}
	return newPlainEncoder(t)
}

func newPlainEncoder(t reflect.Type) encoder {
	switch t.Kind() {
	case reflect.Bool:
		return func(w *writer, v reflect.Value, left int) *Error {
			w.bool(v.Bool())
			return nil
		}
	case reflect.Int, reflect.Int8, reflect.Int16, reflect.Int32, reflect.Int64:
		return func(w *writer, v reflect.Value, left int) *Error {
			w.signed(v.Int())
			return nil
		}
	case reflect.Uint, reflect.Uint8, reflect.Uint16, reflect.Uint32, reflect.Uint64:
		return func(w *writer, v reflect.Value, left int) *Error {
			w.unsigned(v.Uint())
			return nil
		}
	case reflect.Float32, reflect.Float64:
		return func(w *writer, v reflect.Value, left int) *Error {
			w.float(v.Float())
			return nil
		}
	case reflect.String:
		return func(w *writer, v reflect.Value, left int) *Error {
			return w.string(kindString, v.String())
		}
	case reflect.Pointer:
		return newPointerEncoder(t)
	case reflect.Slice, reflect.Array:
		if t.Elem().Kind() == reflect.Uint8 {
			return encodeBytes
		}
		return newListEncoder(t)
	case reflect.Map:
		if t.Key().Kind() == reflect.String {
			return newMapEncoder(t)
		}
	case reflect.Struct:
		return newStructEncoder(t)
	case reflect.Interface:
		return func(w *writer, v reflect.Value, left int) *Error {
			return w.any(v.Interface(), left)
		}
	}
	return func(w *writer, v reflect.Value, left int) *Error {
		return unsupported(v.Type())
	}
}

func encodeBig(w *writer, v reflect.Value, left int) *Error {
	if v.CanAddr() {
		return w.big(v.Addr().Interface().(*big.Int))
	}
	number := v.Interface().(big.Int)
	return w.big(&number)
}

// encodeCustom writes the value that a Marshaler returns.
func encodeCustom(w *writer, v reflect.Value, left int) *Error {
	if v.Kind() == reflect.Pointer && v.IsNil() {
		w.simple(kindNull)
		return nil
	}
	if err := w.enter(); err != nil {
		return err
	}
	defer func() { w.indirect-- }()
	value, err := v.Interface().(Marshaler).MarshalIPLD()
	if err != nil {
		return &Error{Status: ErrCustom, Offset: -1, Type: v.Type(), Err: err}
	}
	return w.any(value, left)
}

func encodeBytes(w *writer, v reflect.Value, left int) *Error {
	if v.Kind() == reflect.Slice && v.IsNil() {
		w.simple(kindNull)
		return nil
	}
	if v.Kind() == reflect.Slice || v.CanAddr() {
		return w.bytes(v.Slice(0, v.Len()).Bytes())
	}
	addressable := reflect.New(v.Type()).Elem()
	addressable.Set(v)
	return encodeBytes(w, addressable, left)
}

func newPointerEncoder(t reflect.Type) encoder {
	encode := encoderOf(t.Elem())
	return func(w *writer, v reflect.Value, left int) *Error {
		if v.IsNil() {
			w.simple(kindNull)
			return nil
		}
		if err := w.enter(); err != nil {
			return err
		}
		defer func() { w.indirect-- }()
		return encode(w, v.Elem(), left)
	}
}

func newListEncoder(t reflect.Type) encoder {
	encode := encoderOf(t.Elem())
	return func(w *writer, v reflect.Value, left int) *Error {
		if v.Kind() == reflect.Slice && v.IsNil() {
			w.simple(kindNull)
			return nil
		}
		begin, err := w.begin(kindList, left)
		if err != nil {
			return err
		}
		for index := 0; index < v.Len(); index++ {
			if err := encode(w, v.Index(index), left-1); err != nil {
				return err.within(indexPart(index))
			}
		}
		return w.end(begin, v.Len())
	}
}

func newMapEncoder(t reflect.Type) encoder {
	encode := encoderOf(t.Elem())
	return func(w *writer, v reflect.Value, left int) *Error {
		if v.IsNil() {
			w.simple(kindNull)
			return nil
		}
		begin, err := w.begin(kindMap, left)
		if err != nil {
			return err
		}
		for pairs := v.MapRange(); pairs.Next(); {
			key := pairs.Key().String()
			err := w.string(kindKey, key)
			if err == nil {
				err = encode(w, pairs.Value(), left-1)
			}
			if err != nil {
				return err.within(keyPart(key))
			}
		}
		return w.end(begin, v.Len())
	}
}

func newStructEncoder(t reflect.Type) encoder {
	fields := fieldsOf(t)
	for at := range fields {
		fields[at].encode = encoderOf(fields[at].typ)
	}
	return func(w *writer, v reflect.Value, left int) *Error {
		begin, err := w.begin(kindMap, left)
		if err != nil {
			return err
		}
		count := 0
		for at := range fields {
			one := &fields[at]
			value, there := one.of(v)
			if !there || one.omitEmpty && empty(value) {
				continue
			}
			count++
			err := w.string(kindKey, one.name)
			if err == nil {
				err = one.encode(w, value, left-1)
			}
			if err != nil {
				return err.within(keyPart(one.name))
			}
		}
		return w.end(begin, count)
	}
}

// of returns the field of a struct, unless an embedded pointer on the way is nil.
func (f *field) of(v reflect.Value) (reflect.Value, bool) {
	for depth, at := range f.index {
		if depth > 0 && v.Kind() == reflect.Pointer {
			if v.IsNil() {
				return v, false
			}
			v = v.Elem()
		}
		v = v.Field(at)
	}
	return v, true
}

// empty reports whether omitempty leaves a value out.
func empty(v reflect.Value) bool {
	switch v.Kind() {
	case reflect.Array, reflect.Map, reflect.Slice, reflect.String:
		return v.Len() == 0
	case reflect.Struct:
		return v.Type() == cidType && v.IsZero()
	}
	return v.IsZero()
}
