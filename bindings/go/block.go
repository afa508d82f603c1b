package kombilad

import "strings"

// Options are limits for untrusted blocks, and options for Go types. The zero value has the defaults.
// The functions of the package use it.
type Options struct {
	// MaxLevels is the maximum number of levels to which lists and maps nest. 0 is the default of
	// 1,024. A negative number allows neither lists nor maps. Unmarshal and Marshal recurse, so
	// they allow 10,000 levels at most.
	MaxLevels int
	// MaxValues is the maximum number of values: the block itself, the items of its lists, and the
	// values of its maps. 0 is the default: the number isn't limited. A negative number doesn't
	// allow any value.
	MaxValues int
	// DisallowUnknownFields makes Unmarshal fail with ErrUnknownField if a Go struct has no field
	// for a key of a map.
	DisallowUnknownFields bool
}

const (
	defaultLevels   = 1024
	recursiveLevels = 10_000
)

func (o Options) levels() int {
	if o.MaxLevels == 0 {
		return defaultLevels
	}
	return max(o.MaxLevels, 0)
}

func (o Options) limits() limits {
	within := limits{levels: cSize(o.levels()), values: cSize(max(o.MaxValues, 0))}
	if o.MaxValues == 0 {
		within.values = maxSize
	}
	return within
}

// Check checks that the bytes are one block of DAG-CBOR.
//
// It fails with an ErrBlock or an ErrLink status for the leftmost error, with ErrTooDeep or
// ErrTooMany if the block exceeds a limit, and with ErrNoMemory. The error has the offset.
func Check(block []byte) error {
	return Options{}.Check(block)
}

// Check is like the function Check, within these limits.
func (o Options) Check(block []byte) error {
	if made := callCheck(block, o.limits()); made.status != 0 {
		return failed(made)
	}
	return nil
}

// CheckCanonical checks that the bytes are one block of DAG-CBOR, and that the keys of each map are
// in canonical order: shorter keys first, and keys of one length by their bytes.
//
// It fails with ErrNotCanonical if keys are out of order, and with the errors of Check.
func CheckCanonical(block []byte) error {
	return Options{}.CheckCanonical(block)
}

// CheckCanonical is like the function CheckCanonical, within these limits.
func (o Options) CheckCanonical(block []byte) error {
	if made := callCheckCanonical(block, o.limits()); made.status != 0 {
		return failed(made)
	}
	return nil
}

// Canonicalize returns the block with the keys of each map in canonical order. Everything else is
// unchanged.
//
// It fails with the errors of Check, and with ErrTooLong if a value has 2^32 bytes or parts, or more.
func Canonicalize(block []byte) ([]byte, error) {
	return Options{}.Canonicalize(block)
}

// Canonicalize is like the function Canonicalize, within these limits.
func (o Options) Canonicalize(block []byte) ([]byte, error) {
	out, made := filled(make([]byte, len(block)), func(out []byte) outcome {
		return callCanonicalize(block, o.limits(), out)
	})
	if made.status != 0 {
		return nil, failed(made)
	}
	return out, nil
}

// Get returns the bytes of the value at a path in a block of DAG-CBOR, and the rest of the path. The
// bytes are a block of their own, for Decode or Unmarshal, and a part of the given one.
//
// The path is such as a/b/0: in a map a segment is a key, and in a list an index. Empty segments are
// skipped, and the empty path leads to the whole block. If the path continues after a link, the
// value is the link, and the rest leads on from its block. Otherwise the rest is empty.
//
// It fails with ErrPathMissing or ErrPathNotAContainer if the path leads to nothing, with ErrTextUTF8
// if it is not UTF-8, and with the errors of Check, which come first.
func Get(block []byte, path string) (value []byte, rest string, err error) {
	return Options{}.Get(block, path)
}

// Get is like the function Get, within these limits.
func (o Options) Get(block []byte, path string) (value []byte, rest string, err error) {
	value, rest, made := callAt(block, o.limits(), path)
	switch made.status {
	case 0:
		return value, rest, nil
	case ErrPathMissing, ErrPathNotAContainer:
		return nil, "", failedAt(path, made)
	case ErrTextUTF8:
		return nil, "", failedWith(made.status)
	}
	return nil, "", failed(made)
}

// failedAt returns the error of a path that leads to nothing at a segment, with the segments up to it.
func failedAt(path string, made outcome) error {
	failure := failedWith(made.status)
	segments := strings.FieldsFunc(path, func(letter rune) bool { return letter == '/' })
	for at := int(made.offset) - 1; at >= 0; at-- {
		failure = failure.within(keyPart(segments[at]))
	}
	return failure.asError()
}

// ToJSON returns the DAG-JSON of a block of DAG-CBOR: UTF-8 without blanks, with the keys of each
// object in the order of their bytes. A link is the object {"/":"bafy.."}, and bytes are
// {"/":{"bytes":"aGk"}}.
//
// It fails with ErrJSONReservedMap if a map would be read as a link or as bytes, and with the errors
// of Check.
func ToJSON(block []byte) ([]byte, error) {
	return Options{}.ToJSON(block)
}

// ToJSON is like the function ToJSON, within these limits.
func (o Options) ToJSON(block []byte) ([]byte, error) {
	text, made := filled(make([]byte, 2*len(block)+spareJSON), func(text []byte) outcome {
		return callToJSON(block, o.limits(), text)
	})
	if made.status != 0 {
		return nil, failed(made)
	}
	return text, nil
}

// FromJSON returns the canonical block of DAG-CBOR of a text in DAG-JSON. The text may have blanks,
// and the keys of an object in any order.
//
// It fails with an ErrJSON status for the first invalid token, with ErrTooDeep or ErrTooMany if the
// text exceeds a limit, and with ErrNoMemory. The error has the offset in the text. It also fails
// with ErrTooLong if a value has 2^32 bytes or parts, or more.
func FromJSON(text []byte) ([]byte, error) {
	return Options{}.FromJSON(text)
}

// FromJSON is like the function FromJSON, within these limits. They count the arrays, the objects
// and the values of the text, so a link is two values.
func (o Options) FromJSON(text []byte) ([]byte, error) {
	// Only a float, or a string with a long head, takes more bytes than its text.
	block, made := filled(make([]byte, len(text)+spareJSON), func(out []byte) outcome {
		return callFromJSON(text, o.limits(), out)
	})
	if made.status != 0 {
		return nil, failed(made)
	}
	return block, nil
}

// spareJSON is the number of bytes by which a buffer is longer than a text usually needs.
const spareJSON = 64

// Position is a part of a block: the CID of a link is block[Offset:Offset+Len].
type Position struct {
	Offset, Len int
}

// Links returns the CIDs of all links of a block of DAG-CBOR, in the order of its bytes. A link that
// occurs twice is returned twice.
//
// It fails with the errors of Check.
func Links(block []byte) ([]Cid, error) {
	return Options{}.Links(block)
}

// Links is like the function Links, within these limits.
func (o Options) Links(block []byte) ([]Cid, error) {
	return mapped(o, block, func(at span) Cid {
		return Cid{string(block[at.offset : at.offset+at.len])}
	})
}

// LinkPositions returns the positions of all links of a block of DAG-CBOR, in the order of its
// bytes. It doesn't copy any part of the block.
//
// It fails with the errors of Check.
func LinkPositions(block []byte) ([]Position, error) {
	return Options{}.LinkPositions(block)
}

// LinkPositions is like the function LinkPositions, within these limits.
func (o Options) LinkPositions(block []byte) ([]Position, error) {
	return mapped(o, block, func(at span) Position {
		return Position{int(at.offset), int(at.len)}
	})
}

// CountLinks returns the number of links of a block of DAG-CBOR.
//
// It fails with the errors of Check.
func CountLinks(block []byte) (int, error) {
	return Options{}.CountLinks(block)
}

// CountLinks is like the function CountLinks, within these limits.
func (o Options) CountLinks(block []byte) (int, error) {
	made := callCountLinks(block, o.limits())
	if made.status != 0 {
		return 0, failed(made)
	}
	return made.needed, nil
}

// usualLink is the number of bytes of a link with a SHA2-256 digest.
const usualLink = 41

func mapped[T any](o Options, block []byte, of func(span) T) ([]T, error) {
	buffer := spanBuffers.get(min(len(block)/usualLink, 4096))
	defer spanBuffers.put(buffer)
	spans, made := filled(*buffer, func(spans []span) outcome {
		return callPositions(block, o.limits(), spans)
	})
	*buffer = spans[:cap(spans)]
	if made.status != 0 {
		return nil, failed(made)
	}
	list := make([]T, len(spans))
	for at := range list {
		list[at] = of(spans[at])
	}
	return list, nil
}

// BlockLinks returns the links of a block, by the codec of its CID: DAG-CBOR, DAG-PB or raw. A raw
// block has no links. BlockLinks doesn't compare the block with the CID, as [Cid.Verify] does.
//
// It fails with ErrUnknownCodec for another codec, and with the errors of Links and DecodePb.
func BlockLinks(cid Cid, block []byte) ([]Cid, error) {
	return Options{}.BlockLinks(cid, block)
}

// BlockLinks is like the function BlockLinks, within these limits.
func (o Options) BlockLinks(cid Cid, block []byte) ([]Cid, error) {
	switch cid.Codec() {
	case DagCbor:
		return o.Links(block)
	case DagPb:
		return pbLinks(block)
	case Raw:
		return nil, nil
	}
	return nil, &Error{Status: ErrUnknownCodec, Offset: -1}
}

// Version returns the version of the C library, for example 0, 1 and 0.
func Version() (major, minor, patch int) {
	number := int(callVersion())
	return number >> 16, number >> 8 & 255, number & 255
}
