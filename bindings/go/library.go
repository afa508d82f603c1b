package kombilad

/*
#include "kombilad.h"

// The results of a call. They are returned by value, so C writes only to those parts of Go's memory
// that are buffers.
typedef struct {
	uint32_t status;
	size_t needed;
	size_t offset;
} outcome;

typedef struct {
	uint32_t status;
	kombilad_cid_parts parts;
} parts_outcome;

typedef struct {
	uint32_t status;
	size_t len;
	uint8_t text[173];
} text_outcome;

typedef struct {
	uint32_t status;
	size_t place;
	kombilad_cid cid;
} cid_outcome;

typedef struct {
	uint32_t status;
	size_t needed;
	uint64_t more;
	uint64_t offset;
	kombilad_car_place place;
	kombilad_span cid;
	kombilad_span block;
} car_outcome;

typedef struct {
	uint32_t status;
	kombilad_span value;
	size_t rest;
	size_t place;
} at_outcome;

#define BLOCK const uint8_t *block, size_t len, size_t levels, size_t values
#define STRING(text) (const uint8_t *)_GoStringPtr(text), _GoStringLen(text)

static outcome check(BLOCK) {
	outcome made = {0};
	made.status = kombilad_block_check(block, len, levels, values, &made.offset);
	return made;
}

static outcome check_canonical(BLOCK) {
	outcome made = {0};
	made.status = kombilad_block_check_canonical(block, len, levels, values, &made.offset);
	return made;
}

static outcome count_links(BLOCK) {
	outcome made = {0};
	made.status = kombilad_links_count(block, len, levels, values, &made.needed, &made.offset);
	return made;
}

static outcome canonicalize(BLOCK, uint8_t *out, size_t out_len) {
	outcome made = {0};
	made.status = kombilad_block_canonicalize(block, len, levels, values, out, out_len,
	                                          &made.needed, &made.offset);
	return made;
}

static outcome to_json(BLOCK, uint8_t *text, size_t text_len) {
	outcome made = {0};
	made.status = kombilad_block_to_json(block, len, levels, values, text, text_len,
	                                     &made.needed, &made.offset);
	return made;
}

static outcome from_json(const uint8_t *text, size_t len, size_t levels, size_t values,
                         uint8_t *out, size_t out_len) {
	outcome made = {0};
	made.status = kombilad_block_of_json(text, len, levels, values, out, out_len, &made.needed,
	                                     &made.offset);
	return made;
}

static at_outcome at(BLOCK, _GoString_ path) {
	at_outcome made = {0};
	made.status = kombilad_block_at(block, len, levels, values, STRING(path), &made.value,
	                                &made.rest, &made.place);
	return made;
}

static outcome positions(BLOCK, kombilad_span *spans, size_t spans_len) {
	outcome made = {0};
	made.status = kombilad_link_positions(block, len, levels, values, spans, spans_len,
	                                      &made.needed, &made.offset);
	return made;
}

static outcome tape(BLOCK, kombilad_entry *entries, size_t entries_len) {
	outcome made = {0};
	made.status = kombilad_tape(block, len, levels, values, entries, entries_len, &made.needed,
	                            &made.offset);
	return made;
}

static outcome pb_tape(const uint8_t *block, size_t len, kombilad_entry *entries,
                       size_t entries_len) {
	outcome made = {0};
	made.status = kombilad_pb_tape(block, len, entries, entries_len, &made.needed, &made.offset);
	return made;
}

static outcome encode(const kombilad_entry *entries, size_t entries_len, const uint8_t *data,
                      size_t data_len, uint8_t *out, size_t out_len) {
	outcome made = {0};
	made.status = kombilad_encode(entries, entries_len, data, data_len, out, out_len,
	                              &made.needed, &made.offset);
	return made;
}

static parts_outcome cid_parts(_GoString_ cid) {
	parts_outcome made = {0};
	made.status = kombilad_cid_parts_of(STRING(cid), &made.parts);
	return made;
}

static text_outcome cid_to_text(_GoString_ cid, uint32_t base) {
	text_outcome made = {0};
	made.status = kombilad_cid_to_text(STRING(cid), base, made.text, sizeof made.text, &made.len);
	return made;
}

static cid_outcome cid_from_text(_GoString_ text) {
	cid_outcome made = {0};
	made.status = kombilad_cid_from_text(STRING(text), &made.cid, &made.place);
	return made;
}

static kombilad_cid cid_of_block(uint64_t codec, const uint8_t *block, size_t len) {
	kombilad_cid made;
	kombilad_cid_of_block(codec, block, len, &made);
	return made;
}

#define PART const uint8_t *bytes, size_t len, uint32_t is_all, size_t limit

static car_outcome open_part(PART, kombilad_cid *roots, size_t roots_len) {
	car_outcome made = {0};
	made.status = kombilad_car_open_part(bytes, len, is_all, limit, &made.place, roots, roots_len,
	                                     &made.needed, &made.more, &made.offset);
	return made;
}

static car_outcome next_part(PART, kombilad_car_place place) {
	car_outcome made = {.place = place};
	made.status = kombilad_car_next_part(bytes, len, is_all, limit, &made.place, &made.cid,
	                                     &made.block, &made.more, &made.offset);
	return made;
}

static outcome car_header(const kombilad_cid *roots, size_t roots_len, uint8_t *bytes,
                          size_t bytes_len) {
	outcome made = {0};
	made.status = kombilad_car_header(roots, roots_len, bytes, bytes_len, &made.needed,
	                                  &made.offset);
	return made;
}

static outcome car_index(const kombilad_car_row *rows, size_t rows_len, uint64_t payload_len,
                         uint8_t *bytes, size_t bytes_len) {
	outcome made = {0};
	made.status = kombilad_car_index(rows, rows_len, payload_len, bytes, bytes_len, &made.needed,
	                                 &made.offset);
	return made;
}

static outcome car_section(_GoString_ cid, uint64_t block_len, uint8_t *bytes, size_t bytes_len) {
	outcome made = {0};
	made.status = kombilad_car_section(STRING(cid), block_len, bytes, bytes_len, &made.needed);
	return made;
}

static uint32_t verify(_GoString_ cid, const uint8_t *block, size_t len) {
	return kombilad_verify(STRING(cid), block, len);
}

typedef struct {
	uint32_t status;
	size_t needed;
	size_t place;
	kombilad_walk walk;
	kombilad_cid cid;
} walk_outcome;

typedef struct {
	uint32_t status;
	size_t needed;
	size_t place;
	kombilad_node node;
} node_outcome;

static walk_outcome file_new(kombilad_walk walk, _GoString_ root, uint64_t start,
                             uint64_t max_bytes, uint64_t max_blocks, size_t max_waiting,
                             size_t max_levels) {
	walk_outcome made = {.walk = walk};
	made.status = kombilad_file_new(STRING(root), start, UINT64_MAX, max_bytes, max_blocks,
	                                max_waiting, max_levels, &made.walk);
	return made;
}

static walk_outcome folder_new(kombilad_walk walk, _GoString_ root) {
	walk_outcome made = {.walk = walk};
	made.status = kombilad_folder_new(STRING(root), &made.walk);
	return made;
}

static walk_outcome walk_wanted(kombilad_walk walk) {
	walk_outcome made = {.walk = walk};
	made.status = kombilad_walk_wanted(&made.walk, &made.cid);
	return made;
}

static walk_outcome file_take(kombilad_walk walk, const uint8_t *block, size_t len, uint8_t *bytes,
                              size_t bytes_len) {
	walk_outcome made = {.walk = walk};
	made.status = kombilad_file_take(&made.walk, block, len, bytes, bytes_len, &made.needed,
	                                 &made.place);
	return made;
}

static walk_outcome folder_take(kombilad_walk walk, const uint8_t *block, size_t len,
                                kombilad_folder_entry *entries, size_t entries_len, uint8_t *names,
                                size_t names_len) {
	walk_outcome made = {.walk = walk};
	made.status = kombilad_folder_take(&made.walk, block, len, entries, entries_len, names,
	                                   names_len, &made.needed, &made.place);
	return made;
}

static void walk_free(kombilad_walk walk) {
	kombilad_walk_free(&walk);
}

static cid_outcome folder_lookup(_GoString_ folder, _GoString_ name, const uint8_t *bytes,
                                 size_t bytes_len, const kombilad_span *blocks,
                                 size_t blocks_len) {
	cid_outcome made = {0};
	made.status = kombilad_folder_lookup(STRING(folder), STRING(name), bytes, bytes_len, blocks,
	                                     blocks_len, &made.cid, &made.place);
	return made;
}

static node_outcome unixfs_node(_GoString_ cid, const uint8_t *block, size_t len, uint8_t *target,
                                size_t target_len) {
	node_outcome made = {0};
	made.status = kombilad_unixfs_node(STRING(cid), block, len, &made.node, target, target_len,
	                                   &made.needed, &made.place);
	return made;
}

typedef struct {
	uint32_t status;
	size_t needed;
	size_t place;
	kombilad_packing packing;
	kombilad_packed_block row;
} pack_outcome;

static pack_outcome pack_file(kombilad_packing packing, uint32_t version, uint32_t raw_leaves,
                              size_t links) {
	pack_outcome made = {.packing = packing};
	made.status = kombilad_pack_file(version, raw_leaves, links, &made.packing);
	return made;
}

static pack_outcome pack_chunk(kombilad_packing packing, const uint8_t *chunk, size_t len) {
	pack_outcome made = {.packing = packing};
	made.status = kombilad_pack_chunk(&made.packing, chunk, len);
	return made;
}

static pack_outcome pack_last_chunk(kombilad_packing packing, const uint8_t *chunk, size_t len,
                                    kombilad_node attributes) {
	pack_outcome made = {.packing = packing};
	made.status = kombilad_pack_last_chunk(&made.packing, chunk, len, &attributes);
	return made;
}

static pack_outcome pack_symlink(kombilad_packing packing, uint32_t version,
                                 kombilad_node attributes, _GoString_ target) {
	pack_outcome made = {.packing = packing};
	made.status = kombilad_pack_symlink(version, &attributes, STRING(target), &made.packing);
	return made;
}

static pack_outcome pack_folder(kombilad_packing packing, uint32_t version,
                                kombilad_node attributes, uint64_t sharded_above,
                                const kombilad_folder_entry *entries, size_t entries_len,
                                const uint8_t *names, size_t names_len) {
	pack_outcome made = {.packing = packing};
	made.status = kombilad_pack_folder(version, &attributes, sharded_above, entries, entries_len,
	                                   names, names_len, &made.packing, &made.place);
	return made;
}

static pack_outcome pack_take(kombilad_packing packing, uint8_t *bytes, size_t bytes_len) {
	pack_outcome made = {.packing = packing};
	made.status = kombilad_pack_take(&made.packing, &made.row, bytes, bytes_len, &made.needed);
	return made;
}

static void pack_free(kombilad_packing packing) {
	kombilad_pack_free(&packing);
}

static uint32_t symlink_stays_inside(_GoString_ target, size_t depth) {
	return kombilad_symlink_stays_inside(STRING(target), depth);
}
*/
import "C"

import (
	"math"
	"runtime"
	"time"
	"unsafe"
)

// C is called only here. A call takes a whole block, so decoding doesn't call C for each value. The
// memory that is passed to C has no pointers in it.

// entry is a value or a key of a block: its layout is that of kombilad_entry.
type entry struct {
	kind  uint32
	len   uint32
	value uint64
}

// span is a part of a block: its layout is that of kombilad_span.
type span struct {
	offset uint64
	len    uint64
}

// These don't compile if the layouts differ in size.
const (
	_ = uint(unsafe.Sizeof(entry{}) - C.sizeof_kombilad_entry)
	_ = uint(C.sizeof_kombilad_entry - unsafe.Sizeof(entry{}))
	_ = uint(unsafe.Sizeof(span{}) - C.sizeof_kombilad_span)
	_ = uint(C.sizeof_kombilad_span - unsafe.Sizeof(span{}))
)

// The kinds of entries.
const (
	kindNull     = C.KOMBILAD_KIND_NULL
	kindFalse    = C.KOMBILAD_KIND_FALSE
	kindTrue     = C.KOMBILAD_KIND_TRUE
	kindUnsigned = C.KOMBILAD_KIND_UNSIGNED
	kindNegative = C.KOMBILAD_KIND_NEGATIVE
	kindFloat    = C.KOMBILAD_KIND_FLOAT
	kindString   = C.KOMBILAD_KIND_STRING
	kindBytes    = C.KOMBILAD_KIND_BYTES
	kindLink     = C.KOMBILAD_KIND_LINK
	kindList     = C.KOMBILAD_KIND_LIST
	kindMap      = C.KOMBILAD_KIND_MAP
	kindKey      = C.KOMBILAD_KIND_KEY
)

// outcome is the status of a call, the number of records that it needs, and the offset of an error.
type outcome struct {
	status Status
	needed int
	offset int64
}

func outcomeOf(made C.outcome) outcome {
	return outcome{Status(made.status), int(made.needed), int64(made.offset)}
}

// limits are the limits of a call: the levels of lists and maps, and the number of values.
type limits struct {
	levels, values C.size_t
}

// maxSize means that there is no limit.
const maxSize = ^C.size_t(0)

// statusTooShort is the status of a call that needs a longer buffer.
const statusTooShort Status = C.KOMBILAD_TOO_SHORT

// The statuses of a call on a part of a CAR. statusMore: it needs more bytes. statusDone: no
// section is left.
const (
	statusMore Status = C.KOMBILAD_CAR_MORE
	statusDone Status = C.KOMBILAD_CAR_DONE
)

// The statuses of a walk over blocks, of a search in a folder, and of what is packed.
// statusWalkDone: no block is left. statusFolderMore: the search needs one more block.
// statusFolderMissing: there is no such entry.
const (
	statusWalkDone      Status = C.KOMBILAD_WALK_DONE
	statusFolderMore    Status = C.KOMBILAD_FOLDER_MORE
	statusFolderMissing Status = C.KOMBILAD_FOLDER_MISSING
)

func cSize(size int) C.size_t {
	return C.size_t(size)
}

func bytesOf(bytes []byte) (*C.uint8_t, C.size_t) {
	if len(bytes) == 0 {
		return nil, 0
	}
	return (*C.uint8_t)(unsafe.Pointer(&bytes[0])), C.size_t(len(bytes))
}

func entriesOf(entries []entry) (*C.kombilad_entry, C.size_t) {
	if len(entries) == 0 {
		return nil, 0
	}
	return (*C.kombilad_entry)(unsafe.Pointer(&entries[0])), C.size_t(len(entries))
}

func spansOf(spans []span) (*C.kombilad_span, C.size_t) {
	if len(spans) == 0 {
		return nil, 0
	}
	return (*C.kombilad_span)(unsafe.Pointer(&spans[0])), C.size_t(len(spans))
}

func callCheck(block []byte, within limits) outcome {
	bytes, length := bytesOf(block)
	return outcomeOf(C.check(bytes, length, within.levels, within.values))
}

func callCheckCanonical(block []byte, within limits) outcome {
	bytes, length := bytesOf(block)
	return outcomeOf(C.check_canonical(bytes, length, within.levels, within.values))
}

func callCountLinks(block []byte, within limits) outcome {
	bytes, length := bytesOf(block)
	return outcomeOf(C.count_links(bytes, length, within.levels, within.values))
}

func callCanonicalize(block []byte, within limits, out []byte) outcome {
	bytes, length := bytesOf(block)
	to, room := bytesOf(out)
	return outcomeOf(C.canonicalize(bytes, length, within.levels, within.values, to, room))
}

func callToJSON(block []byte, within limits, text []byte) outcome {
	bytes, length := bytesOf(block)
	to, room := bytesOf(text)
	return outcomeOf(C.to_json(bytes, length, within.levels, within.values, to, room))
}

func callFromJSON(text []byte, within limits, out []byte) outcome {
	bytes, length := bytesOf(text)
	to, room := bytesOf(out)
	return outcomeOf(C.from_json(bytes, length, within.levels, within.values, to, room))
}

// callAt returns the value at a path, the rest of the path, and the status with its place.
func callAt(block []byte, within limits, path string) ([]byte, string, outcome) {
	bytes, length := bytesOf(block)
	made := C.at(bytes, length, within.levels, within.values, path)
	stopped := outcome{Status(made.status), 0, int64(made.place)}
	if stopped.status != 0 {
		return nil, "", stopped
	}
	value := block[made.value.offset:][:made.value.len:made.value.len]
	return value, path[made.rest:], stopped
}

func callPositions(block []byte, within limits, spans []span) outcome {
	bytes, length := bytesOf(block)
	to, room := spansOf(spans)
	return outcomeOf(C.positions(bytes, length, within.levels, within.values, to, room))
}

func callTape(block []byte, within limits, entries []entry) outcome {
	bytes, length := bytesOf(block)
	to, room := entriesOf(entries)
	return outcomeOf(C.tape(bytes, length, within.levels, within.values, to, room))
}

func callPbTape(block []byte, entries []entry) outcome {
	bytes, length := bytesOf(block)
	to, room := entriesOf(entries)
	return outcomeOf(C.pb_tape(bytes, length, to, room))
}

func callEncode(entries []entry, data, out []byte) outcome {
	from, count := entriesOf(entries)
	bytes, length := bytesOf(data)
	to, room := bytesOf(out)
	return outcomeOf(C.encode(from, count, bytes, length, to, room))
}

// cidParts are the parts of a CID, or zeros if the bytes aren't a CID.
type cidParts struct {
	version, codec, hash uint64
	digest               int
}

func callCidParts(cid string) (cidParts, Status) {
	made := C.cid_parts(cid)
	if made.status != C.KOMBILAD_OK {
		return cidParts{}, Status(made.status)
	}
	of := made.parts
	return cidParts{uint64(of.version), uint64(of.codec), uint64(of.hash), int(of.digest_len)}, 0
}

func callCidToText(cid string, base Base) (string, Status) {
	made := C.cid_to_text(cid, C.uint32_t(base))
	if made.status != C.KOMBILAD_OK {
		return "", Status(made.status)
	}
	return string((*[len(made.text)]byte)(unsafe.Pointer(&made.text))[:made.len]), 0
}

func callCidFromText(text string) (string, outcome) {
	made := C.cid_from_text(text)
	return cidOf(&made.cid), outcome{status: Status(made.status), offset: int64(made.place)}
}

func callCidOfBlock(codec uint64, block []byte) string {
	bytes, length := bytesOf(block)
	made := C.cid_of_block(C.uint64_t(codec), bytes, length)
	return cidOf(&made)
}

func cidOf(record *C.kombilad_cid) string {
	return string((*[len(record.bytes)]byte)(unsafe.Pointer(&record.bytes))[:record.len])
}

func recordOf(cid Cid) (record C.kombilad_cid) {
	to := (*[len(record.bytes)]byte)(unsafe.Pointer(&record.bytes))
	record.len = C.uint8_t(copy(to[:], cid.bytes))
	return record
}

func callVerify(cid string, block []byte) Status {
	bytes, length := bytesOf(block)
	return Status(C.verify(cid, bytes, length))
}

// carPlace is the place of the next section of a CAR.
type carPlace struct {
	version, at, end uint64
}

// carPart is the result of a call on a part of a CAR.
type carPart struct {
	outcome
	more       uint64 // the number of bytes that are needed, if the status is statusMore
	place      carPlace
	cid, block span
}

func carPartOf(made C.car_outcome) carPart {
	return carPart{
		outcome{Status(made.status), int(made.needed), int64(made.offset)},
		uint64(made.more),
		carPlace{uint64(made.place.version), uint64(made.place.at), uint64(made.place.end)},
		span{uint64(made.cid.offset), uint64(made.cid.len)},
		span{uint64(made.block.offset), uint64(made.block.len)},
	}
}

func flag(isSet bool) C.uint32_t {
	if isSet {
		return 1
	}
	return 0
}

// callCarOpen reads the header of a CAR that begins with these bytes. isAll reports whether they
// are the whole CAR.
func callCarOpen(bytes []byte, isAll bool, limit int) (roots []Cid, found carPart) {
	from, length := bytesOf(bytes)
	records, _ := filled(nil, func(records []C.kombilad_cid) outcome {
		var to *C.kombilad_cid
		if len(records) > 0 {
			to = &records[0]
		}
		room := C.size_t(len(records))
		found = carPartOf(C.open_part(from, length, flag(isAll), C.size_t(limit), to, room))
		return found.outcome
	})
	roots = make([]Cid, len(records))
	for at := range records {
		roots[at] = Cid{cidOf(&records[at])}
	}
	return roots, found
}

// callCarNext reads the section at a place of a CAR, whose bytes from there on begin with these.
// isAll reports whether the CAR ends with them.
func callCarNext(bytes []byte, isAll bool, limit int, at carPlace) carPart {
	from, length := bytesOf(bytes)
	place := C.kombilad_car_place{C.uint64_t(at.version), C.uint64_t(at.at), C.uint64_t(at.end)}
	return carPartOf(C.next_part(from, length, flag(isAll), C.size_t(limit), place))
}

// carSection is the number of bytes that a section has before its block, at most.
const carSection = C.KOMBILAD_CAR_SECTION

// callCarHeader returns the header of a CAR. The offset of an error is the number of the root.
func callCarHeader(roots []Cid) ([]byte, outcome) {
	records := make([]C.kombilad_cid, len(roots)+1) // the last one isn't passed
	for at, root := range roots {
		records[at] = recordOf(root)
	}
	return filled(nil, func(bytes []byte) outcome {
		to, room := bytesOf(bytes)
		return outcomeOf(C.car_header(&records[0], C.size_t(len(roots)), to, room))
	})
}

// callCarSection writes what a section has before a block of this length.
func callCarSection(cid string, block int, bytes []byte) outcome {
	to, room := bytesOf(bytes)
	return outcomeOf(C.car_section(cid, C.uint64_t(block), to, room))
}

// carFront is the number of bytes of a CAR of version 2 before its payload.
const carFront = C.KOMBILAD_CAR_FRONT

// carRow is the CID of a block, and the offset of its section in the payload.
type carRow = C.kombilad_car_row

func rowOf(cid Cid, offset uint64) carRow {
	return carRow{cid: recordOf(cid), offset: C.uint64_t(offset)}
}

// callCarIndex returns the first bytes of a CAR of version 2 with a payload of this length, and after
// them its index.
func callCarIndex(rows []carRow, payload uint64) ([]byte, outcome) {
	records := append(rows, carRow{}) // the last one isn't passed
	return filled(nil, func(bytes []byte) outcome {
		to, room := bytesOf(bytes)
		return outcomeOf(C.car_index(&records[0], C.size_t(len(rows)), C.uint64_t(payload), to, room))
	})
}

// walk is a walk over the blocks of a file or of a folder, whose memory is C's until free. The zero
// value has none. A call gets a copy of the record and returns it, since C may move the walk.
type walk struct {
	record C.kombilad_walk
}

// newWalk returns a walk that is freed at the latest when nothing refers to it any more.
func newWalk() *walk {
	w := &walk{}
	runtime.SetFinalizer(w, (*walk).free)
	return w
}

func (w *walk) free() {
	C.walk_free(w.record)
	w.record = C.kombilad_walk{}
	runtime.SetFinalizer(w, nil)
}

func (w *walk) outcomeOf(made C.walk_outcome) outcome {
	w.record = made.walk
	return outcome{Status(made.status), int(made.needed), int64(made.place)}
}

// fileLimits are the limits of a walk over a file.
type fileLimits struct {
	bytes, blocks   uint64
	waiting, levels C.size_t
}

// usualLimits are the limits that the header has for untrusted files.
var usualLimits = fileLimits{
	math.MaxUint64, C.KOMBILAD_FILE_BLOCKS, C.KOMBILAD_FILE_WAITING, C.KOMBILAD_FILE_LEVELS,
}

// newFile begins a walk over the bytes of a file from the byte start on.
func (w *walk) newFile(root string, start int64, within fileLimits) outcome {
	return w.outcomeOf(C.file_new(w.record, root, C.uint64_t(start), C.uint64_t(within.bytes),
		C.uint64_t(within.blocks), within.waiting, within.levels))
}

func (w *walk) newFolder(root string) outcome {
	return w.outcomeOf(C.folder_new(w.record, root))
}

// wanted returns the CID of the block that the walk wants next.
func (w *walk) wanted() (string, outcome) {
	made := C.walk_wanted(w.record)
	return cidOf(&made.cid), w.outcomeOf(made)
}

// takeFile gives a block to the walk over a file, which writes the bytes of the file in it to a
// buffer that is not shorter than the block.
func (w *walk) takeFile(block, bytes []byte) outcome {
	from, length := bytesOf(block)
	to, room := bytesOf(bytes)
	return w.outcomeOf(C.file_take(w.record, from, length, to, room))
}

var folderBuffers buffers[C.kombilad_folder_entry]

// takeFolder gives a block to the walk over a folder, and returns the entries in it.
func (w *walk) takeFolder(block []byte) ([]FolderEntry, outcome) {
	buffer, names := folderBuffers.get(0), byteBuffers.get(len(block))
	defer folderBuffers.put(buffer)
	defer byteBuffers.put(names)
	from, length := bytesOf(block)
	text, space := bytesOf(*names)
	records, made := filled(*buffer, func(records []C.kombilad_folder_entry) outcome {
		room := C.size_t(len(records))
		return w.outcomeOf(C.folder_take(w.record, from, length, &records[0], room, text, space))
	})
	*buffer = records[:cap(records)]
	if made.status != 0 {
		return nil, made
	}
	entries := make([]FolderEntry, len(records))
	for at := range records {
		of := &records[at]
		begin, end := of.name.offset, of.name.offset+of.name.len
		entries[at] = FolderEntry{
			string((*names)[begin:end]), Cid{cidOf(&of.cid)}, uint64(of.tsize), of.has_tsize != 0,
		}
	}
	return entries, made
}

// callFolderLookup looks for an entry in a folder, with the blocks at these places of the bytes.
func callFolderLookup(folder, name string, bytes []byte, blocks []span) (string, outcome) {
	from, length := bytesOf(bytes)
	places, count := spansOf(blocks)
	made := C.folder_lookup(folder, name, from, length, places, count)
	return cidOf(&made.cid), outcome{status: Status(made.status), offset: int64(made.place)}
}

// The kinds of nodes.
const (
	NodeRaw      NodeKind = C.KOMBILAD_NODE_RAW // bytes of a file: a raw block, or a node of old writers
	NodeFolder   NodeKind = C.KOMBILAD_NODE_FOLDER
	NodeFile     NodeKind = C.KOMBILAD_NODE_FILE
	NodeMetadata NodeKind = C.KOMBILAD_NODE_METADATA
	NodeSymlink  NodeKind = C.KOMBILAD_NODE_SYMLINK
	NodeShard    NodeKind = C.KOMBILAD_NODE_SHARD // a sharded folder, or a part of one
)

func callUnixFSNode(cid string, block []byte) (node Node, made outcome) {
	from, length := bytesOf(block)
	target, made := filled(nil, func(target []byte) outcome {
		to, room := bytesOf(target)
		found := C.unixfs_node(cid, from, length, to, room)
		of := found.node
		node = Node{
			Kind: NodeKind(of.kind),
			Size: uint64(of.size), HasSize: of.fields&C.KOMBILAD_NODE_SIZE != 0,
			Mode: uint32(of.mode), HasMode: of.fields&C.KOMBILAD_NODE_MODE != 0,
			HasModTime: of.fields&C.KOMBILAD_NODE_TIME != 0,
		}
		if node.HasModTime {
			node.ModTime = time.Unix(int64(of.seconds), int64(of.nanoseconds)).UTC()
		}
		return outcome{Status(found.status), int(found.needed), int64(found.place)}
	})
	node.Target = string(target)
	return node, made
}

// layout is how files and folders are cut into blocks.
type layout struct {
	version      int
	rawLeaves    bool
	chunk, links int
	shardedAbove uint64
}

// usualLayout is the layout that the header has.
var usualLayout = layout{
	chunk:        C.KOMBILAD_PACK_CHUNK,
	links:        C.KOMBILAD_PACK_LINKS,
	shardedAbove: C.KOMBILAD_PACK_SHARDED_ABOVE,
}

// packing is a file, a folder or a symbolic link that is packed, whose memory is C's until free. The
// zero value has none. A call gets a copy of the record and returns it, since C may move it.
type packing struct {
	record C.kombilad_packing
}

func (k *packing) free() {
	C.pack_free(k.record)
	k.record = C.kombilad_packing{}
}

func (k *packing) outcomeOf(made C.pack_outcome) outcome {
	k.record = made.packing
	return outcome{Status(made.status), int(made.needed), int64(made.place)}
}

func attributesOf(of *Attributes) (node C.kombilad_node) {
	if of != nil && of.HasMode {
		node.fields |= C.KOMBILAD_NODE_MODE
		node.mode = C.uint32_t(of.Mode)
	}
	if of != nil && of.HasModTime {
		node.fields |= C.KOMBILAD_NODE_TIME
		node.seconds = C.int64_t(of.ModTime.Unix())
		node.nanoseconds = C.uint32_t(of.ModTime.Nanosecond())
	}
	return node
}

func (k *packing) newFile(by layout) outcome {
	version, links := C.uint32_t(by.version), C.size_t(by.links)
	return k.outcomeOf(C.pack_file(k.record, version, flag(by.rawLeaves), links))
}

// addChunk adds a chunk that isn't the last.
func (k *packing) addChunk(chunk []byte) outcome {
	from, length := bytesOf(chunk)
	return k.outcomeOf(C.pack_chunk(k.record, from, length))
}

func (k *packing) addLastChunk(chunk []byte, of *Attributes) outcome {
	from, length := bytesOf(chunk)
	return k.outcomeOf(C.pack_last_chunk(k.record, from, length, attributesOf(of)))
}

func (k *packing) newSymlink(by layout, target string, of *Attributes) outcome {
	return k.outcomeOf(C.pack_symlink(k.record, C.uint32_t(by.version), attributesOf(of), target))
}

// newFolder begins a folder of entries that are sorted by their names. The offset of an error is the
// number of the entry, if the status concerns one.
func (k *packing) newFolder(by layout, entries []PackedEntry, of *Attributes) outcome {
	records := make([]C.kombilad_folder_entry, len(entries)+1) // the last one isn't passed
	var names []byte
	for at, it := range entries {
		records[at].cid = recordOf(it.Cid)
		records[at].name.offset = C.uint64_t(len(names))
		records[at].name.len = C.uint64_t(len(it.Name))
		records[at].tsize, records[at].has_tsize = C.uint64_t(it.Total), 1
		names = append(names, it.Name...)
	}
	text, length := bytesOf(names)
	return k.outcomeOf(C.pack_folder(k.record, C.uint32_t(by.version), attributesOf(of),
		C.uint64_t(by.shardedAbove), &records[0], C.size_t(len(entries)), text, length))
}

// take returns the next block that waits. The status is statusWalkDone if there is none.
func (k *packing) take() (row Packed, block []byte, made outcome) {
	block, made = filled([]byte{}, func(bytes []byte) outcome {
		to, room := bytesOf(bytes)
		taken := C.pack_take(k.record, to, room)
		of := &taken.row
		row = Packed{Cid{cidOf(&of.cid)}, uint64(of.size), uint64(of.total)}
		return k.outcomeOf(taken)
	})
	return row, block, made
}

func callSymlinkStaysInside(target string, depth int) bool {
	return C.symlink_stays_inside(target, cSize(depth)) != 0
}

func callStatusText(status uint32) string {
	var text [80]byte
	var needed C.size_t
	C.kombilad_status_text(C.uint32_t(status), (*C.uint8_t)(&text[0]), C.size_t(len(text)), &needed)
	if int(needed) > len(text) {
		return ""
	}
	return string(text[:needed])
}

func callVersion() uint32 {
	return uint32(C.kombilad_version())
}
