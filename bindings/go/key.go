package squall

// #include "library.h"
import "C"

import "fmt"

// Part is the number of a partition, from 0 to 9999.
type Part uint32

// Nowhere is no partition: the answer for a rank that is no key's.
const Nowhere Part = C.SQUALL_NOWHERE

// Rank is the number by which keys are ordered: root * 4294967296 + second. The ranks below [End] are
// those of keys.
type Rank uint64

// End is the end of all keys, and no key itself.
const End Rank = C.SQUALL_TOP

// Key is the rank of the key root:second. Roots up to 4294967294 have keys.
func Key(root, second uint32) Rank {
	return Rank(root)<<32 | Rank(second)
}

// String is "root:second", or "end".
func (r Rank) String() string {
	if r == End {
		return "end"
	}
	return fmt.Sprintf("%d:%d", uint64(r)>>32, uint32(r))
}

// KeyOf is the key to which a row belongs whose own key is these bytes. All programs of a deployment have to
// map a row to the same key, and this is the map.
//
// Bytes that begin with two numbers, as 2:7 or 2:7:cart, belong to the key of these numbers. A number has 1
// to 10 decimal digits and is at most 4294967295, the first one at most 4294967294. All other bytes belong to
// the key of a hash. It is that of the bytes between the first { and the next } after it, if there is at
// least one, or else that of all bytes.
func KeyOf(row []byte) Rank {
	at, count := bytesOf(row)
	return Rank(C.squall_key_of(at, count))
}

// Leg says that the keys from Lo on, below Hi, are to be asked for at Part. Neighbouring legs have
// different partitions.
type Leg struct {
	Lo, Hi Rank
	Part   Part
}

func legOf(leg C.squall_leg) Leg {
	return Leg{Lo: Rank(leg.lo), Hi: Rank(leg.hi), Part: Part(leg.part)}
}

// Span is the keys from Lo on, below Hi.
type Span struct {
	Lo, Hi Rank
}

func spanOf(span C.squall_span) Span {
	return Span{Lo: Rank(span.lo), Hi: Rank(span.hi)}
}

// atOnce is how many legs, moves or spans one call asks for.
const atOnce = 64

// allLegs gathers the legs of the keys from lo on, below hi, by calls of fill. A call writes the legs from
// its argument on, at most atOnce of them, and says how many.
func allLegs(lo, hi Rank, fill func(lo Rank, out *C.squall_leg) C.size_t) []Leg {
	var legs []Leg
	var block [atOnce]C.squall_leg
	for lo < hi {
		count := fill(lo, &block[0])
		for _, leg := range block[:count] {
			legs = append(legs, legOf(leg))
		}
		if count == 0 {
			break
		}
		lo = legs[len(legs)-1].Hi
	}
	return legs
}

// allIn gathers items by calls of fill. A call writes those from the index `from` on, at most atOnce of them,
// and says how many.
func allIn[In, Out any](of func(In) Out, fill func(from C.size_t, out *In) C.size_t) []Out {
	var all []Out
	var block [atOnce]In
	for isFull := true; isFull; {
		count := fill(C.size_t(len(all)), &block[0])
		for _, item := range block[:count] {
			all = append(all, of(item))
		}
		isFull = count == atOnce
	}
	return all
}

// allOf gathers items by calls of fill with the handle, as [allIn] does. All calls are made under one lock, so that
// Close cuts nothing off, and no other call comes between.
func allOf[T, In, Out any](h *handle[T], of func(In) Out, fill func(at *T, from C.size_t, out *In) C.size_t) []Out {
	var all []Out
	h.use(func(at *T) {
		all = allIn(of, func(from C.size_t, out *In) C.size_t { return fill(at, from, out) })
	})
	return all
}
