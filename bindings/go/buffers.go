package kombilad

import (
	"sync"
	"unsafe"
)

// buffers keeps buffers from one call to the next, so that small blocks need no new ones.
type buffers[T any] struct {
	pool sync.Pool
}

var (
	entryBuffers buffers[entry]
	spanBuffers  buffers[span]
	byteBuffers  buffers[byte]
)

// A buffer has at least minBuffer bytes, and is kept if it has at most maxBuffer.
const (
	minBuffer = 16 << 10
	maxBuffer = 64 << 10
)

// get returns a buffer of at least count records. Its length is its capacity.
func (b *buffers[T]) get(count int) *[]T {
	if kept, _ := b.pool.Get().(*[]T); kept != nil {
		if len(*kept) >= count {
			return kept
		}
		b.pool.Put(kept)
	}
	var record T
	made := make([]T, max(count, minBuffer/int(unsafe.Sizeof(record))))
	return &made
}

// put takes a buffer back. The caller must not use it afterwards.
func (b *buffers[T]) put(buffer *[]T) {
	var record T
	if cap(*buffer)*int(unsafe.Sizeof(record)) <= maxBuffer {
		*buffer = (*buffer)[:cap(*buffer)]
		b.pool.Put(buffer)
	}
}

// filled makes a call with the buffer, and again with a longer one if the call needs it. It returns
// the part that the call has filled. A call needs at most a few times the length of its input.
func filled[T any](buffer []T, call func([]T) outcome) ([]T, outcome) {
	made := call(buffer)
	if made.status == statusTooShort {
		buffer = make([]T, made.needed)
		made = call(buffer)
	}
	if made.status != 0 {
		return buffer, made
	}
	return buffer[:made.needed], made
}
