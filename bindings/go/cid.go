package kombilad

import (
	"bytes"
	"encoding/json"
	"strconv"
)

// The codes of codecs and hash functions, as in the table of multicodecs.
const (
	Raw     uint64 = 0x55
	DagPb   uint64 = 0x70
	DagCbor uint64 = 0x71

	Identity uint64 = 0x00
	SHA2_256 uint64 = 0x12
	SHA2_512 uint64 = 0x13
)

// Base is a base of a CID's text: its multibase prefix.
type Base byte

// The bases of a CID's text.
const (
	BaseUsual   Base = 0   // base32 for a CIDv1, base58btc for a CIDv0
	Base16      Base = 'f' // hexadecimal digits in lower case
	Base32      Base = 'b' // RFC 4648 in lower case, without padding
	Base32Upper Base = 'B' // RFC 4648 in upper case, without padding
	Base36      Base = 'k' // lower case
	Base58BTC   Base = 'z'
	Base64URL   Base = 'u' // RFC 4648, section 5, without padding
)

// Cid is a content identifier. It is comparable, and can be the key of a map. The zero value is
// undefined: it is not the CID of any block. Every other value is a valid CID of at most 86 bytes.
type Cid struct {
	bytes string
}

// ParseCid parses the text of a CID in any [Base], with or without "/ipfs/" before it.
//
// It fails with an ErrText or an ErrCid status. The offset is that of the first invalid character.
func ParseCid(text string) (Cid, error) {
	cid, made := callCidFromText(text)
	if made.status == 0 {
		return Cid{cid}, nil
	}
	if made.status != ErrTextInvalidLetter {
		made.offset = -1
	}
	return Cid{}, failed(made)
}

// CidFromBytes returns the CID that the bytes encode. No bytes may follow it.
//
// It fails with an ErrCid status. The bytes are copied.
func CidFromBytes(encoded []byte) (Cid, error) {
	cid := string(encoded)
	if _, status := callCidParts(cid); status != 0 {
		return Cid{}, failed(outcome{status: status, offset: -1})
	}
	return Cid{cid}, nil
}

// NewCid returns the CIDv1 of a block: with a codec such as [DagCbor], and with the block's SHA2-256
// digest.
func NewCid(codec uint64, block []byte) Cid {
	return Cid{callCidOfBlock(codec, block)}
}

// Defined reports whether the CID is not the zero value.
func (c Cid) Defined() bool {
	return c.bytes != ""
}

// Version returns 0 or 1.
func (c Cid) Version() uint64 {
	parts, _ := callCidParts(c.bytes)
	return parts.version
}

// Codec returns the code of the block's codec, such as [DagCbor]. It is 0 if the CID is undefined.
func (c Cid) Codec() uint64 {
	parts, _ := callCidParts(c.bytes)
	return parts.codec
}

// HashCode returns the code of the hash function, such as [SHA2_256].
func (c Cid) HashCode() uint64 {
	parts, _ := callCidParts(c.bytes)
	return parts.hash
}

// Digest returns a copy of the digest, of at most 64 bytes.
func (c Cid) Digest() []byte {
	parts, _ := callCidParts(c.bytes)
	return []byte(c.bytes[len(c.bytes)-parts.digest:])
}

// Bytes returns a copy of the CID's bytes.
func (c Cid) Bytes() []byte {
	return []byte(c.bytes)
}

// KeyString returns the CID's bytes as a string, without a copy.
func (c Cid) KeyString() string {
	return c.bytes
}

// String returns the usual text: base32 for a CIDv1, and base58btc for a CIDv0, which begins with
// "Qm". It is empty if the CID is undefined, or if an allocation in C fails.
func (c Cid) String() string {
	text, _ := c.StringOfBase(BaseUsual)
	return text
}

// StringOfBase returns the text in a base, with its prefix except for a CIDv0. It is empty if the
// CID is undefined.
//
// It fails with ErrUnknownBase if the base is not one of the constants, with ErrV0Base for a CIDv0
// in a base other than Base58BTC, and with ErrNoMemory.
func (c Cid) StringOfBase(base Base) (string, error) {
	if !c.Defined() {
		return "", nil
	}
	text, status := callCidToText(c.bytes, base)
	if status != 0 {
		return "", failed(outcome{status: status, offset: -1})
	}
	return text, nil
}

// GoString returns the CID as an expression of Go.
func (c Cid) GoString() string {
	return "kombilad.ParseCid(" + strconv.Quote(c.String()) + ")"
}

// Verify checks that a block is the one that the CID identifies.
//
// It fails with ErrWrongDigest if the block has another digest. It fails with ErrUnknownHash if the
// hash function is not SHA2-256, SHA2-512, BLAKE2b-256 or identity, and with ErrCidEnd if the CID is
// undefined.
func (c Cid) Verify(block []byte) error {
	if status := callVerify(c.bytes, block); status != 0 {
		return failed(outcome{status: status, offset: -1})
	}
	return nil
}

// MarshalText implements [encoding.TextMarshaler] by String.
func (c Cid) MarshalText() ([]byte, error) {
	text, err := c.StringOfBase(BaseUsual)
	return []byte(text), err
}

// UnmarshalText implements [encoding.TextUnmarshaler] by ParseCid. An empty text is the undefined
// CID.
func (c *Cid) UnmarshalText(text []byte) (err error) {
	if len(text) == 0 {
		*c = Cid{}
		return nil
	}
	*c, err = ParseCid(string(text))
	return err
}

// MarshalBinary implements [encoding.BinaryMarshaler] by Bytes.
func (c Cid) MarshalBinary() ([]byte, error) {
	return c.Bytes(), nil
}

// UnmarshalBinary implements [encoding.BinaryUnmarshaler] by CidFromBytes. No bytes are the
// undefined CID.
func (c *Cid) UnmarshalBinary(encoded []byte) (err error) {
	if len(encoded) == 0 {
		*c = Cid{}
		return nil
	}
	*c, err = CidFromBytes(encoded)
	return err
}

// MarshalJSON returns the CID in DAG-JSON: {"/":"bafy.."}. The undefined CID is null.
func (c Cid) MarshalJSON() ([]byte, error) {
	if !c.Defined() {
		return []byte("null"), nil
	}
	text, err := c.StringOfBase(BaseUsual)
	if err != nil {
		return nil, err
	}
	return []byte(`{"/":"` + text + `"}`), nil
}

// UnmarshalJSON reads a CID that MarshalJSON has written. It also reads a string with the text of a
// CID, since encoding/json passes the key of an object like this. It fails with ErrType for any
// other JSON, and with the errors of ParseCid.
func (c *Cid) UnmarshalJSON(text []byte) error {
	type object struct {
		Text *string `json:"/"`
	}
	link, target := &object{}, any(nil)
	if target = &link; bytes.HasPrefix(text, []byte(`"`)) {
		target = &link.Text
	}
	decoder := json.NewDecoder(bytes.NewReader(text))
	decoder.DisallowUnknownFields()
	err := decoder.Decode(target)
	switch {
	case err == nil && link == nil:
		*c = Cid{}
		return nil
	case err != nil || link.Text == nil:
		return &Error{Status: ErrType, Offset: -1, detail: `a CID in JSON must be {"/": "<text>"}`}
	}
	*c, err = ParseCid(*link.Text)
	return err
}
