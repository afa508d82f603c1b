package kombilad

// PbNode is a node of DAG-PB, the codec of files and folders in IPFS. UnixFS data in it is not
// decoded: [ReadNode] does that.
type PbNode struct {
	// Links are in the order of the block.
	Links []PbLink
	// Data is nil if the node has no data, and not nil if it has data of length 0.
	Data []byte
}

// PbLink is a link of a node.
type PbLink struct {
	Hash Cid
	// Name is the link's name, if it has one. An empty name differs from a missing one.
	Name    string
	HasName bool
	// Tsize is the size of the link's target, if the link has it. It is not checked.
	Tsize    uint64
	HasTsize bool
}

// DecodePb returns the node that a block of DAG-PB encodes. Names and data are copies.
//
// It fails with an ErrPb or an ErrLink status, and the offset of the field at fault. It fails with
// ErrTooLong if a name or the data have 2^32 bytes or more, and with ErrNoMemory.
func DecodePb(block []byte) (*PbNode, error) {
	node := &PbNode{}
	err := withPbTape(block, func(read *tape) {
		for at := range read.entries {
			e := &read.entries[at]
			switch e.kind {
			case kindLink:
				node.Links = append(node.Links, PbLink{Hash: Cid{string(read.content(e))}})
			case kindString:
				last := &node.Links[len(node.Links)-1]
				last.Name, last.HasName = string(read.content(e)), true
			case kindUnsigned:
				last := &node.Links[len(node.Links)-1]
				last.Tsize, last.HasTsize = e.value, true
			case kindBytes:
				node.Data = append([]byte{}, read.content(e)...)
			}
		}
	})
	if err != nil {
		return nil, err
	}
	return node, nil
}

func pbLinks(block []byte) ([]Cid, error) {
	links := []Cid{}
	err := withPbTape(block, func(read *tape) {
		for at := range read.entries {
			if e := &read.entries[at]; e.kind == kindLink {
				links = append(links, Cid{string(read.content(e))})
			}
		}
	})
	if err != nil {
		return nil, err
	}
	return links, nil
}

func withPbTape(block []byte, use func(*tape)) error {
	return withTape(block, func(entries []entry) outcome {
		return callPbTape(block, entries)
	}, func(read *tape) *Error {
		use(read)
		return nil
	}).asError()
}
