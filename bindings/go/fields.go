package kombilad

import (
	"reflect"
	"sort"
	"strings"
)

// field is a field of a Go struct that has a key in a block.
type field struct {
	name      string
	index     []int
	typ       reflect.Type
	tagged    bool
	omitEmpty bool
	encode    encoder
	decode    decoder
}

// fieldsOf returns the fields of a struct and of the structs that are embedded in it, in canonical
// order of their names. If several fields have the same name, it returns the least nested one, or
// the one with a tag. If several are left, it ignores all of them, as encoding/json does.
func fieldsOf(t reflect.Type) []field {
	type level struct {
		typ   reflect.Type
		index []int
	}
	var found []field
	seen := map[reflect.Type]bool{}
	for next := []level{{typ: t}}; len(next) > 0; {
		current := next
		next = nil
		here := map[reflect.Type]int{}
		for _, it := range current {
			here[it.typ]++
		}
		for _, it := range current {
			if seen[it.typ] {
				continue
			}
			seen[it.typ] = true
			for at := 0; at < it.typ.NumField(); at++ {
				one, embedded := fieldAt(it.typ, at, it.index)
				if embedded != nil {
					next = append(next, level{embedded, one.index})
				} else if one.index != nil {
					found = append(found, one)
					if here[it.typ] > 1 {
						found = append(found, one) // two of one type hide one another
					}
				}
			}
		}
	}
	return dominant(found)
}

// fieldAt returns a field of a struct with its tag. If the field is embedded, and its own fields
// replace it, fieldAt also returns its type. The index is nil if the field has no key.
func fieldAt(t reflect.Type, at int, outer []int) (one field, embedded reflect.Type) {
	it := t.Field(at)
	tag := it.Tag.Get("ipld")
	if tag == "-" {
		return one, nil
	}
	name, options, _ := strings.Cut(tag, ",")
	inner := it.Type
	if it.Anonymous && inner.Kind() == reflect.Pointer {
		inner = inner.Elem()
	}
	flat := it.Anonymous && name == "" && inner.Kind() == reflect.Struct && !hasForm(inner)
	if !it.IsExported() && !flat {
		return one, nil
	}
	one.index = append(append([]int{}, outer...), at)
	if flat {
		return one, inner
	}
	one.typ, one.tagged, one.name = it.Type, name != "", name
	if name == "" {
		one.name = it.Name
	}
	for _, option := range strings.Split(options, ",") {
		one.omitEmpty = one.omitEmpty || option == "omitempty"
	}
	return one, nil
}

func dominant(found []field) []field {
	sort.SliceStable(found, func(i, j int) bool {
		a, b := found[i], found[j]
		switch {
		case len(a.name) != len(b.name):
			return len(a.name) < len(b.name)
		case a.name != b.name:
			return a.name < b.name
		case len(a.index) != len(b.index):
			return len(a.index) < len(b.index)
		}
		return a.tagged && !b.tagged
	})
	kept := found[:0]
	for first := 0; first < len(found); {
		last := first + 1
		for last < len(found) && found[last].name == found[first].name {
			last++
		}
		one := found[first]
		if last == first+1 || len(found[first+1].index) > len(one.index) ||
			found[first+1].tagged != one.tagged {
			kept = append(kept, one)
		}
		first = last
	}
	return kept
}
