// Package kombilad reads and writes content identifiers (CIDs), blocks of DAG-CBOR, CARs, and files
// and folders of UnixFS, and reads blocks of DAG-PB. A proved C library decodes and encodes them.
//
// [Decode] and [Encode] are for values of any shape, [Unmarshal] and [Marshal] for Go types.
// [Get] finds the value at a path in a block, and [Links] its links, without decoding it. [OpenCar] reads a CAR one block at a time,
// and [NewCarWriter] writes one. [ToJSON] converts a block to DAG-JSON, and [FromJSON] converts
// DAG-JSON to a block.
//
// [NewFS] returns a folder of UnixFS as an [fs.FS], [NewFileReader] reads a file, and
// [NewFolderReader] lists a folder. A [BlockGetter] gets the blocks from anywhere, and each block
// is verified. [NewPacker] packs files and folders into blocks.
//
// All calls accept untrusted bytes. An error is an [*Error]: it has a [Status], the byte of the
// input at fault, for a Go type the path of the value that doesn't fit, and for UnixFS the CID of
// the block. [Options], [CarOptions] and [FileOptions] are limits. A call takes memory in
// proportion to its input. No input overflows the stack.
//
// Goroutines may call all functions at the same time, also for the same block, unless one of them
// changes it.
package kombilad
