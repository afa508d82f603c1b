package kombilad

import (
	"encoding/binary"
	"math"
	"math/big"
	"sync"
)

// tape is a block with an entry for each of its values and keys, in the order of its bytes. The C
// library has checked the block: each string is UTF-8, and each part that an entry names is within
// the block.
type tape struct {
	block   []byte
	entries []entry
	// keys has short keys that were read before, of this block or of earlier ones, so that a key of
	// many maps is copied once.
	keys [64]string
}

// A key of at most keptKey bytes is kept.
const keptKey = 32

// tapes has tapes that are not in use, with the keys that they have kept.
var tapes = sync.Pool{New: func() any { return new(tape) }}

// withTape reads the tape of a block and calls use with it. A block of n bytes has at most n
// entries, and most blocks have fewer than n/4.
func withTape(block []byte, call func([]entry) outcome, use func(*tape) *Error) *Error {
	buffer := entryBuffers.get(min(len(block), max(1024, len(block)/4)))
	defer entryBuffers.put(buffer)
	entries, made := filled(*buffer, call)
	*buffer = entries[:cap(entries)]
	if made.status != 0 {
		return failed(made)
	}
	read := tapes.Get().(*tape)
	read.block, read.entries = block, entries
	err := use(read)
	read.block, read.entries = nil, nil
	tapes.Put(read)
	return err
}

func (o Options) withTape(block []byte, use func(*tape) *Error) *Error {
	within := o.limits()
	return withTape(block, func(entries []entry) outcome {
		return callTape(block, within, entries)
	}, use)
}

// after returns the index of the entry that follows a value.
func (t *tape) after(at int) int {
	e := &t.entries[at]
	if e.kind == kindList || e.kind == kindMap {
		return at + int(e.len)
	}
	return at + 1
}

// content returns the bytes of a float, a string, bytes, a link or a key. They are a part of the
// block, not a copy.
func (t *tape) content(e *entry) []byte {
	return t.block[e.value : e.value+uint64(e.len)]
}

func (t *tape) float(e *entry) float64 {
	return math.Float64frombits(binary.BigEndian.Uint64(t.content(e)))
}

// key returns a key as a string.
func (t *tape) key(e *entry) string {
	key := t.content(e)
	if len(key) == 0 || len(key) > keptKey {
		return string(key)
	}
	place := &t.keys[(len(key)*7+int(key[0])+int(key[len(key)-1])*5)%len(t.keys)]
	if *place != string(key) {
		*place = string(key)
	}
	return *place
}

// integer returns an integer as an int64 if it fits, and otherwise as a uint64 or a *big.Int.
func integer(e *entry) any {
	switch {
	case e.value > math.MaxInt64 && e.kind == kindUnsigned:
		return e.value
	case e.value > math.MaxInt64:
		return bigInteger(e, new(big.Int))
	case e.kind == kindUnsigned:
		return int64(e.value)
	}
	return -1 - int64(e.value)
}

func bigInteger(e *entry, number *big.Int) *big.Int {
	number.SetUint64(e.value)
	if e.kind == kindNegative {
		number.Not(number)
	}
	return number
}

// kindNames are the names of the kinds of entries in errors.
var kindNames = [...]string{
	kindNull: "null", kindFalse: "a boolean", kindTrue: "a boolean", kindUnsigned: "an integer",
	kindNegative: "an integer", kindFloat: "a float", kindString: "a string", kindBytes: "bytes",
	kindLink: "a link", kindList: "a list", kindMap: "a map", kindKey: "a key",
}

// open is a list or a map that isn't complete yet.
type open struct {
	list   []any
	object map[string]any
	key    string
	left   int
}

// value returns the value of an entry. It doesn't recurse, so that no block overflows the stack.
func (t *tape) value(at int) any {
	var root any
	var room [16]open
	opened := room[:0]
	for end := t.after(at); at < end; at++ {
		for len(opened) > 0 && opened[len(opened)-1].left == 0 {
			opened = opened[:len(opened)-1]
		}
		e := &t.entries[at]
		var value any
		next := open{left: int(e.value)}
		switch e.kind {
		case kindFalse:
			value = false
		case kindTrue:
			value = true
		case kindUnsigned, kindNegative:
			value = integer(e)
		case kindFloat:
			value = t.float(e)
		case kindString:
			value = string(t.content(e))
		case kindBytes:
			value = append([]byte{}, t.content(e)...)
		case kindLink:
			value = Cid{string(t.content(e))}
		case kindList:
			next.list = make([]any, e.value)
			value = next.list
		case kindMap:
			next.object = make(map[string]any, e.value)
			value = next.object
		case kindKey:
			opened[len(opened)-1].key = t.key(e)
			continue
		}
		if len(opened) == 0 {
			root = value
		} else if last := &opened[len(opened)-1]; last.object != nil {
			last.object[last.key] = value
			last.left--
		} else {
			last.list[len(last.list)-last.left] = value
			last.left--
		}
		if e.kind == kindList || e.kind == kindMap {
			opened = append(opened, next)
		}
	}
	return root
}

// Decode returns the value of a block of DAG-CBOR:
//
//	null                 nil
//	boolean              bool
//	integer              int64; uint64 from 2^63 on; *big.Int below -2^63
//	float                float64
//	string               string
//	bytes                []byte
//	link                 Cid
//	list                 []any
//	map                  map[string]any
//
// Strings and bytes are copies, so a value doesn't keep the block in memory. A value takes up to 170
// bytes of memory for each byte of the block (for nested maps of one key).
//
// It fails with the errors of Check, and with ErrTooLong if a value has 2^32 bytes or parts, or more.
func Decode(block []byte) (any, error) {
	return Options{}.Decode(block)
}

// Decode is like the function Decode, within these limits.
func (o Options) Decode(block []byte) (value any, err error) {
	err = o.withTape(block, func(read *tape) *Error {
		value = read.value(0)
		return nil
	}).asError()
	return value, err
}
