package kombilad

import (
	"reflect"
	"strconv"
	"strings"
)

// Error is the error of every call of this package, except those that an [io.Reader], an [io.Writer]
// or a [BlockPutter] returned. An [FS] returns it in an [fs.PathError].
//
//	var failure *kombilad.Error
//	if errors.As(err, &failure) {
//		fmt.Println(failure.Status, failure.Offset, failure.Path)
//	}
type Error struct {
	// Status is the reason, one of the constants of this package.
	Status Status
	// Offset is the byte of the block, the CAR or the text at fault, or -1 if there is none. In a
	// block the value, the key or the link at fault begins there. For an ErrUnixFS status it is the
	// byte of the node's data.
	Offset int64
	// Path leads from the whole value to the part that can't be decoded or encoded, for example
	// posts[3].author. It is empty for the whole value, and for a block that isn't valid. A path of
	// many parts has [...] in its middle. For a link of a folder's block it is such as Links[3]. For
	// an entry that can't be packed it is the name, quoted if it isn't a simple one. For Get it has
	// the segments up to the one that leads to nothing.
	Path string
	// Type is the Go type that doesn't fit the value, or nil.
	Type reflect.Type
	// Cid is that of the block of UnixFS that is missing or at fault. For other errors it is
	// undefined.
	Cid Cid
	// Err is the error that a Marshaler, an Unmarshaler or a BlockGetter returned, or nil.
	Err error

	detail string
	// parts are the parts of the path, the innermost first.
	parts []string
}

// Error returns a sentence with the place of the error.
func (e *Error) Error() string {
	text := "kombilad: "
	if e.Path != "" {
		text += e.Path + ": "
	}
	switch {
	case e.Status == ErrMissingBlock:
		return text + "the block " + e.Cid.String() + " is missing"
	case e.Status == ErrBlockGetter:
		return text + "cannot get the block " + e.Cid.String() + ": " + e.Err.Error()
	case e.Err != nil:
		text += e.Err.Error()
	case e.detail != "":
		text += e.detail
	default:
		text += e.Status.Error()
	}
	if e.Offset >= 0 {
		text += ", at byte " + strconv.FormatInt(e.Offset, 10)
	}
	if e.Cid.Defined() {
		text += ", in block " + e.Cid.String()
	}
	return text
}

// Is reports whether the target is the error's Status, for [errors.Is].
func (e *Error) Is(target error) bool {
	return target == error(e.Status)
}

// Unwrap returns Err.
func (e *Error) Unwrap() error {
	return e.Err
}

// within adds an outer part to the path.
func (e *Error) within(part string) *Error {
	e.parts = append(e.parts, part)
	return e
}

// below returns the error with the path of an fs.FS at which it occurred.
func (e *Error) below(name string) error {
	parts := strings.Split(name, "/")
	for at := len(parts) - 1; at >= 0 && name != "."; at-- {
		e = e.within(keyPart(parts[at]))
	}
	return e.asError()
}

// asError returns the error with its path. For a nil pointer it returns a nil interface.
func (e *Error) asError() error {
	if e == nil {
		return nil
	}
	for at := len(e.parts) - 1; at >= 0; at-- {
		if at == len(e.parts)-1-shownParts && at > shownParts {
			e.Path += "[...]"
			at = shownParts
		}
		if e.Path != "" && e.parts[at][0] != '[' {
			e.Path += "."
		}
		e.Path += e.parts[at]
	}
	e.parts = nil
	return e
}

// shownParts is the number of parts that a long path has before [...], and after it.
const shownParts = 32

func indexPart(index int) string {
	return "[" + strconv.Itoa(index) + "]"
}

// keyPart returns a key as a part of a path. A key that isn't short and simple is quoted, and cut
// after 64 bytes.
func keyPart(key string) string {
	for at := 0; at < len(key); at++ {
		letter := key[at] | 0x20
		simple := letter >= 'a' && letter <= 'z' || key[at] == '_' || key[at] == '$' ||
			at > 0 && (key[at] == '-' || key[at] >= '0' && key[at] <= '9')
		if !simple || at == 64 {
			key = key[:min(len(key), 64)]
			return "[" + strconv.Quote(key) + "]"
		}
	}
	if key == "" {
		return `[""]`
	}
	return key
}

func min(a, b int) int {
	if a < b {
		return a
	}
	return b
}

func max(a, b int) int {
	if a > b {
		return a
	}
	return b
}

// failed returns the error of a status, with the offset if the status has one.
func failed(made outcome) *Error {
	offset := made.offset
	switch made.status {
	case ErrNoMemory, ErrNotCanonical, ErrTooLong:
		offset = -1
	}
	return &Error{Status: made.status, Offset: offset}
}

// failedWith returns the error of a status without an offset.
func failedWith(status Status) *Error {
	return failed(outcome{status: status, offset: -1})
}

// failedIn returns the error of a status that the block of a CID has.
func failedIn(cid Cid, made outcome) *Error {
	e := failed(made)
	e.Cid = cid
	switch status := made.status; {
	case ErrLinkEnd <= status && status <= ErrLinkTrailingBytes,
		ErrPbEnd <= status && status <= ErrPbUTF8,
		ErrUnixFSEnd <= status && status <= ErrUnixFSNanoseconds:
		return e
	case status == ErrFolderInvalidName, status == ErrFolderNameOrder,
		status == ErrFolderInvalidSlot, status == ErrFolderSlotOrder, status == ErrFolderWrongSlot:
		e.Path = "Links" + indexPart(int(made.offset))
	}
	e.Offset = -1
	return e
}
