package squall

// #include "library.h"
import "C"

import "unsafe"

// NoSub is the sub-plan of a key that does not move.
const NoSub uint32 = C.SQUALL_NOWHERE

// Place says where a key is in the course of [View.Number].
type Place struct {
	// Part is the partition to ask: Source or Dest.
	Part Part
	// Source is the partition of the key in the course's old plan.
	Source Part
	// Dest is the partition of the key in the course's new plan.
	Dest Part
	// Sub is the sub-plan in which the key moves, from 0, or NoSub if it does not move.
	Sub uint32
}

// noPlace is the answer for a rank that is no key's.
var noPlace = Place{Part: Nowhere, Source: Nowhere, Dest: Nowhere, Sub: NoSub}

// IsSettled says whether the key stays at Part until another course begins: it does not move, or its load
// is known. It is false if the rank is no key's.
func (p Place) IsSettled() bool {
	return p.Part == p.Dest && p.Part != Nowhere
}

// Locate writes where each key is to the same index of `places`, for as many keys as that has elements, and
// returns how many. Part of each is what [View.Route] answers. If a rank is no key's, its partitions are
// [Nowhere], and its Sub is [NoSub]. If the view is closed, nothing is written, and the count is 0. It makes
// one call into C for all keys.
func (v *View) Locate(keys []Rank, places []Place) int {
	return eachKey(v, keys, places, func(at *C.squall_view, ranks *C.uint64_t, count C.size_t, out *Place, room C.size_t) C.size_t {
		// The fields of a Place are those of a squall_place.
		return C.squall_view_locate(at, ranks, count, (*C.squall_place)(unsafe.Pointer(out)), room)
	})
}

// Place is where one key is. Its partitions are [Nowhere], its Sub is [NoSub], and the second result is
// false, if the rank is no key's, or if the view is closed.
func (v *View) Place(key Rank) (Place, bool) {
	at := v.read()
	if at == nil {
		return noPlace, false
	}
	it := C.place_of(at, C.uint64_t(key))
	v.done()
	place := Place{Part(it.part), Part(it.source), Part(it.dest), uint32(it.sub)}
	return place, place != noPlace
}
