package kombilad

import (
	"math"
	"math/big"
	"reflect"
	"strconv"
	"sync"
)

// Unmarshaler is a type that decodes itself. UnmarshalIPLD gets the value that [Decode] returns, and
// may keep it.
type Unmarshaler interface {
	UnmarshalIPLD(value any) error
}

// Unmarshal decodes a block of DAG-CBOR into the Go value that v points to.
//
// A struct takes a map by the names of its exported fields, or by those of their tags:
//
//	Author string            // the key "Author"
//	Author string `ipld:"author"`
//	Author string `ipld:"author,omitempty"` // Marshal leaves an empty value out
//	Author string `ipld:"-"` // no key
//
// Names match exactly. The fields of an embedded struct count as those of the outer struct, unless
// the tag names it. Keys without a field are ignored, unless
// [Options.DisallowUnknownFields] is set. Fields without a key keep their value.
//
// Null makes a pointer, a slice, a map or an interface nil, and leaves any other value unchanged. A
// pointer is set to a new value if it is nil. Otherwise each kind of value fits these Go types:
//
//   - a boolean: bool
//   - an integer: int and uint of each size, if it is in range, big.Int, and float32 and float64, if
//     they can represent it exactly
//   - a float: float64, and float32 if it is in range
//   - a string: string
//   - bytes: []byte, and an array of bytes of the same length
//   - a link: Cid
//   - a list: a slice, and an array of the same length
//   - a map: a struct, and a map with keys of a string type
//   - every value: any, which gets the value that [Decode] returns, and a type with UnmarshalIPLD
//
// It fails with the errors of Decode. If a part of the value doesn't fit, it fails with ErrType,
// ErrRange, ErrLength, ErrUnknownField or ErrCustom, with the path of the part and its Go type. The
// value may then be set in part. It fails with ErrUnsupportedType for a Go type such as a channel,
// and with ErrNotPointer if v isn't a pointer or is nil.
func Unmarshal(block []byte, v any) error {
	return Options{}.Unmarshal(block, v)
}

// Unmarshal is like the function Unmarshal, with these limits and options.
func (o Options) Unmarshal(block []byte, v any) error {
	target := reflect.ValueOf(v)
	if target.Kind() != reflect.Pointer || target.IsNil() {
		return &Error{Status: ErrNotPointer, Offset: -1, Type: reflect.TypeOf(v)}
	}
	o.MaxLevels = min(o.levels(), recursiveLevels)
	if o.MaxLevels == 0 {
		o.MaxLevels = -1
	}
	decode := decoderOf(target.Type().Elem())
	return o.withTape(block, func(read *tape) *Error {
		return decode(&decoding{tape: read, strict: o.DisallowUnknownFields}, 0, target.Elem())
	}).asError()
}

// decoding is the state that the decoders of a block's parts share.
type decoding struct {
	*tape
	strict bool
}

// decoder sets a Go value to the value of an entry.
type decoder func(d *decoding, at int, v reflect.Value) *Error

var (
	cidType         = reflect.TypeOf(Cid{})
	bigType         = reflect.TypeOf(big.Int{})
	unmarshalerType = reflect.TypeOf((*Unmarshaler)(nil)).Elem()
	marshalerType   = reflect.TypeOf((*Marshaler)(nil)).Elem()
	decoders        sync.Map // of reflect.Type and decoder
)

// hasForm reports whether a struct has another form in a block than a map.
func hasForm(t reflect.Type) bool {
	return t == cidType || t == bigType || t.Implements(marshalerType) ||
		reflect.PointerTo(t).Implements(marshalerType) ||
		reflect.PointerTo(t).Implements(unmarshalerType)
}

// cached returns the function of a type, and makes it once. A type that contains itself gets a
// function that waits until the real one is made.
func cached[F any](kept *sync.Map, t reflect.Type, waiting func(made func() F) F, create func(reflect.Type) F) F {
	if found, ok := kept.Load(t); ok {
		return found.(F)
	}
	var made F
	var done sync.WaitGroup
	done.Add(1)
	found, exists := kept.LoadOrStore(t, waiting(func() F {
		done.Wait()
		return made
	}))
	if exists {
		return found.(F)
	}
	made = create(t)
	done.Done()
	kept.Store(t, made)
	return made
}

func decoderOf(t reflect.Type) decoder {
	return cached(&decoders, t, func(made func() decoder) decoder {
		return func(d *decoding, at int, v reflect.Value) *Error { return made()(d, at, v) }
	}, newDecoder)
}

func newDecoder(t reflect.Type) decoder {
	switch {
	case t == cidType:
		return decodeCid
	case t == bigType:
		return decodeBig
	case t.Kind() != reflect.Pointer && reflect.PointerTo(t).Implements(unmarshalerType):
		return decodeCustom
	}
	switch t.Kind() {
	case reflect.Bool:
		return decodeBool
	case reflect.Int, reflect.Int8, reflect.Int16, reflect.Int32, reflect.Int64:
		return decodeInt
	case reflect.Uint, reflect.Uint8, reflect.Uint16, reflect.Uint32, reflect.Uint64:
		return decodeUint
	case reflect.Float32, reflect.Float64:
		return decodeFloat
	case reflect.String:
		return decodeString
	case reflect.Pointer:
		return newPointerDecoder(t)
	case reflect.Slice:
		if t.Elem().Kind() == reflect.Uint8 {
			return decodeBytes
		}
		return newSliceDecoder(t)
	case reflect.Array:
		if t.Elem().Kind() == reflect.Uint8 {
			return decodeByteArray
		}
		return newArrayDecoder(t)
	case reflect.Map:
		if t.Key().Kind() == reflect.String {
			return newMapDecoder(t)
		}
	case reflect.Struct:
		return newStructDecoder(t)
	case reflect.Interface:
		if t.NumMethod() == 0 {
			return decodeAny
		}
	}
	return func(d *decoding, at int, v reflect.Value) *Error {
		return unsupported(v.Type())
	}
}

func unsupported(t reflect.Type) *Error {
	detail := "the Go type " + t.String() + " has no form in DAG-CBOR"
	return &Error{Status: ErrUnsupportedType, Offset: -1, Type: t, detail: detail}
}

// misfit returns the error of a value that has another kind than the type.
func (d *decoding) misfit(at int, t reflect.Type) *Error {
	detail := kindNames[d.entries[at].kind] + " does not fit the Go type " + t.String()
	return &Error{Status: ErrType, Offset: -1, Type: t, detail: detail}
}

// unlessNull returns nil for null, which leaves a value unchanged. Otherwise it returns the error
// of misfit.
func (d *decoding) unlessNull(at int, t reflect.Type) *Error {
	if d.entries[at].kind == kindNull {
		return nil
	}
	return d.misfit(at, t)
}

func (d *decoding) outOfRange(at int, t reflect.Type) *Error {
	number := "the float"
	if e := &d.entries[at]; e.kind == kindFloat {
		number += " " + strconv.FormatFloat(d.float(e), 'g', -1, 64)
	} else {
		number = "the integer " + bigInteger(e, new(big.Int)).String()
	}
	detail := number + " is out of range for the Go type " + t.String()
	return &Error{Status: ErrRange, Offset: -1, Type: t, detail: detail}
}

func decodeBool(d *decoding, at int, v reflect.Value) *Error {
	switch d.entries[at].kind {
	case kindFalse, kindTrue:
		v.SetBool(d.entries[at].kind == kindTrue)
		return nil
	}
	return d.unlessNull(at, v.Type())
}

func decodeInt(d *decoding, at int, v reflect.Value) *Error {
	e := &d.entries[at]
	if e.kind != kindUnsigned && e.kind != kindNegative {
		return d.unlessNull(at, v.Type())
	}
	number := int64(e.value)
	if e.kind == kindNegative {
		number = ^number
	}
	if e.value > math.MaxInt64 || v.OverflowInt(number) {
		return d.outOfRange(at, v.Type())
	}
	v.SetInt(number)
	return nil
}

func decodeUint(d *decoding, at int, v reflect.Value) *Error {
	e := &d.entries[at]
	switch {
	case e.kind == kindNegative || e.kind == kindUnsigned && v.OverflowUint(e.value):
		return d.outOfRange(at, v.Type())
	case e.kind != kindUnsigned:
		return d.unlessNull(at, v.Type())
	}
	v.SetUint(e.value)
	return nil
}

func decodeFloat(d *decoding, at int, v reflect.Value) *Error {
	e := &d.entries[at]
	switch e.kind {
	case kindFloat:
		number := d.float(e)
		if v.OverflowFloat(number) {
			return d.outOfRange(at, v.Type())
		}
		v.SetFloat(number)
		return nil
	case kindUnsigned, kindNegative:
		// A float of 64 bits has each integer up to 2^53, and one of 32 bits each up to 2^24.
		limit := uint64(1) << 53
		if v.Kind() == reflect.Float32 {
			limit = 1 << 24
		}
		number := float64(e.value)
		if e.kind == kindNegative {
			number = -1 - number
		}
		if e.value > limit || e.kind == kindNegative && e.value == limit {
			return d.outOfRange(at, v.Type())
		}
		v.SetFloat(number)
		return nil
	}
	return d.unlessNull(at, v.Type())
}

func decodeString(d *decoding, at int, v reflect.Value) *Error {
	e := &d.entries[at]
	if e.kind != kindString {
		return d.unlessNull(at, v.Type())
	}
	v.SetString(string(d.content(e)))
	return nil
}

func decodeBytes(d *decoding, at int, v reflect.Value) *Error {
	e := &d.entries[at]
	switch e.kind {
	case kindBytes:
		v.SetBytes(append([]byte{}, d.content(e)...))
		return nil
	case kindNull:
		v.Set(reflect.Zero(v.Type()))
		return nil
	}
	return d.misfit(at, v.Type())
}

func (d *decoding) wrongLength(at, length int, t reflect.Type) *Error {
	detail := kindNames[d.entries[at].kind] + " of length " + strconv.Itoa(length) +
		" does not fit the Go type " + t.String()
	return &Error{Status: ErrLength, Offset: -1, Type: t, detail: detail}
}

func decodeByteArray(d *decoding, at int, v reflect.Value) *Error {
	e := &d.entries[at]
	if e.kind != kindBytes {
		return d.unlessNull(at, v.Type())
	}
	if int(e.len) != v.Len() {
		return d.wrongLength(at, int(e.len), v.Type())
	}
	copy(v.Slice(0, v.Len()).Bytes(), d.content(e))
	return nil
}

func decodeCid(d *decoding, at int, v reflect.Value) *Error {
	e := &d.entries[at]
	if e.kind != kindLink {
		return d.unlessNull(at, v.Type())
	}
	*v.Addr().Interface().(*Cid) = Cid{string(d.content(e))}
	return nil
}

func decodeBig(d *decoding, at int, v reflect.Value) *Error {
	e := &d.entries[at]
	if e.kind != kindUnsigned && e.kind != kindNegative {
		return d.unlessNull(at, v.Type())
	}
	bigInteger(e, v.Addr().Interface().(*big.Int))
	return nil
}

func decodeCustom(d *decoding, at int, v reflect.Value) *Error {
	if err := v.Addr().Interface().(Unmarshaler).UnmarshalIPLD(d.value(at)); err != nil {
		return &Error{Status: ErrCustom, Offset: -1, Type: v.Type(), Err: err}
	}
	return nil
}

func decodeAny(d *decoding, at int, v reflect.Value) *Error {
	if value := d.value(at); value != nil {
		v.Set(reflect.ValueOf(value))
	} else {
		v.Set(reflect.Zero(v.Type()))
	}
	return nil
}

func newPointerDecoder(t reflect.Type) decoder {
	decode := decoderOf(t.Elem())
	return func(d *decoding, at int, v reflect.Value) *Error {
		if d.entries[at].kind == kindNull {
			v.Set(reflect.Zero(v.Type()))
			return nil
		}
		if v.IsNil() {
			v.Set(reflect.New(v.Type().Elem()))
		}
		return decode(d, at, v.Elem())
	}
}

// roomFor returns the number of items that a slice or a map has room for before the first one is
// decoded. If that item doesn't fit its type, no more memory is taken.
func roomFor(count uint64, t reflect.Type) int {
	room := max(1<<16/max(int(t.Size()), 1), 1)
	if count < uint64(room) {
		return int(count)
	}
	return room
}

func newSliceDecoder(t reflect.Type) decoder {
	decode := decoderOf(t.Elem())
	return func(d *decoding, at int, v reflect.Value) *Error {
		e := &d.entries[at]
		if e.kind == kindNull {
			v.Set(reflect.Zero(v.Type()))
			return nil
		}
		if e.kind != kindList {
			return d.misfit(at, v.Type())
		}
		count := int(e.value)
		length := roomFor(e.value, v.Type().Elem())
		v.Set(reflect.MakeSlice(v.Type(), length, length))
		at++
		for index := 0; index < count; index++ {
			if index == length {
				length = min(count, 2*length)
				longer := reflect.MakeSlice(v.Type(), length, length)
				reflect.Copy(longer, v)
				v.Set(longer)
			}
			if err := decode(d, at, v.Index(index)); err != nil {
				v.SetLen(index)
				return err.within(indexPart(index))
			}
			at = d.after(at)
		}
		return nil
	}
}

func newArrayDecoder(t reflect.Type) decoder {
	decode := decoderOf(t.Elem())
	return func(d *decoding, at int, v reflect.Value) *Error {
		e := &d.entries[at]
		if e.kind != kindList {
			return d.unlessNull(at, v.Type())
		}
		if e.value != uint64(v.Len()) {
			return d.wrongLength(at, int(e.value), v.Type())
		}
		at++
		for index := 0; index < v.Len(); index++ {
			if err := decode(d, at, v.Index(index)); err != nil {
				return err.within(indexPart(index))
			}
			at = d.after(at)
		}
		return nil
	}
}

func newMapDecoder(t reflect.Type) decoder {
	decode := decoderOf(t.Elem())
	return func(d *decoding, at int, v reflect.Value) *Error {
		e := &d.entries[at]
		if e.kind == kindNull {
			v.Set(reflect.Zero(v.Type()))
			return nil
		}
		if e.kind != kindMap {
			return d.misfit(at, v.Type())
		}
		if v.IsNil() {
			v.Set(reflect.MakeMapWithSize(v.Type(), roomFor(e.value, v.Type().Elem())))
		}
		key := reflect.New(v.Type().Key()).Elem()
		zero := reflect.Zero(v.Type().Elem())
		item := reflect.New(v.Type().Elem()).Elem()
		end := d.after(at)
		for at++; at < end; at = d.after(at + 1) {
			name := d.key(&d.entries[at])
			item.Set(zero)
			if err := decode(d, at+1, item); err != nil {
				return err.within(keyPart(name))
			}
			key.SetString(name)
			v.SetMapIndex(key, item)
		}
		return nil
	}
}

func newStructDecoder(t reflect.Type) decoder {
	fields := fieldsOf(t)
	byName := map[string]int{}
	for at := range fields {
		fields[at].decode = decoderOf(fields[at].typ)
		byName[fields[at].name] = at
	}
	return func(d *decoding, at int, v reflect.Value) *Error {
		if d.entries[at].kind != kindMap {
			return d.unlessNull(at, v.Type())
		}
		next := 0
		end := d.after(at)
		for at++; at < end; at = d.after(at + 1) {
			key := d.content(&d.entries[at])
			// In canonical blocks the keys have the order of the fields, and some may be missing.
			if next >= len(fields) || fields[next].name != string(key) {
				found, known := byName[string(key)]
				if !known {
					if d.strict {
						return unknownField(v.Type(), string(key))
					}
					continue
				}
				next = found
			}
			one := &fields[next]
			next++
			place, err := one.place(v)
			if err == nil {
				err = one.decode(d, at+1, place)
			}
			if err != nil {
				return err.within(keyPart(one.name))
			}
		}
		return nil
	}
}

func unknownField(t reflect.Type, key string) *Error {
	detail := "the Go type " + t.String() + " has no field for the key " + keyPart(key)
	return &Error{Status: ErrUnknownField, Offset: -1, Type: t, detail: detail}
}

// place returns the field of a struct. It allocates the embedded structs on the path to it.
func (f *field) place(v reflect.Value) (reflect.Value, *Error) {
	for depth, at := range f.index {
		if depth > 0 && v.Kind() == reflect.Pointer {
			if v.IsNil() && !v.CanSet() {
				detail := "cannot set the embedded pointer to the unexported " + v.Type().Elem().String()
				return v, &Error{Status: ErrUnsupportedType, Offset: -1, Type: v.Type(), detail: detail}
			}
			if v.IsNil() {
				v.Set(reflect.New(v.Type().Elem()))
			}
			v = v.Elem()
		}
		v = v.Field(at)
	}
	return v, nil
}
