package squall

// #include "library.h"
import "C"

import (
	"runtime"
	"sync"
)

// View is what a router said at one moment. It stays the same, whatever the router takes later, and also
// after the router was closed. Any number of goroutines may route by one view, and do not wait for each
// other.
type View struct {
	// The calls that only read a view of the library may run at once with one. They hold the lock for
	// reading, which only keeps Close from them.
	mu sync.RWMutex
	at *C.squall_view // nil once the view is closed
	// One more view of the same, from which others are opened: that call needs a view alone.
	cloning sync.Mutex
	spare   *C.squall_view
}

// openView opens a view and its spare one.
func openView(open func(room *C.squall_view)) (*View, error) {
	at, err := views.open(open)
	if err != nil {
		return nil, err
	}
	spare, err := views.open(func(room *C.squall_view) { C.squall_view_again(at, room) })
	if err != nil {
		views.end(at)
		return nil, err
	}
	view := &View{at: at, spare: spare}
	runtime.SetFinalizer(view, (*View).Close)
	return view, nil
}

// read gives what a call reads, and keeps Close from it until done. It is nil if the view is closed, and
// then there is nothing to be done.
func (v *View) read() *C.squall_view {
	if v == nil {
		return nil
	}
	v.mu.RLock()
	if v.at == nil {
		v.mu.RUnlock()
		return nil
	}
	return v.at
}

// done says that a call has read.
func (v *View) done() {
	v.mu.RUnlock()
}

// Close closes the view, once the calls that run have returned. The table is freed with the last view
// that shares it. It always returns nil.
func (v *View) Close() error {
	if v == nil {
		return nil
	}
	v.cloning.Lock()
	defer v.cloning.Unlock()
	v.mu.Lock()
	defer v.mu.Unlock()
	if v.at == nil {
		return nil
	}
	views.end(v.at)
	views.end(v.spare)
	v.at, v.spare = nil, nil
	runtime.SetFinalizer(v, nil)
	return nil
}

// Clone opens one more view of the same table, which is closed by itself. No table is copied.
//
// Errors: [ErrNoMemory]; [ErrClosed].
func (v *View) Clone() (*View, error) {
	if v == nil {
		return nil, ErrClosed
	}
	v.cloning.Lock()
	defer v.cloning.Unlock()
	if v.spare == nil {
		return nil, ErrClosed
	}
	return openView(func(room *C.squall_view) { C.squall_view_again(v.spare, room) })
}

// Route is the partition to ask for the key. It is [Nowhere] and false if the rank is no key's, or if
// the view is closed.
func (v *View) Route(key Rank) (Part, bool) {
	at := v.read()
	if at == nil {
		return Nowhere, false
	}
	part := Part(C.squall_view_route(at, C.uint64_t(key)))
	v.done()
	return part, part != Nowhere
}

// Routes writes the partition to ask for each key to the same index of `parts`, as many as that has places,
// and returns how many. Each is what [View.Route] answers: [Nowhere] if the rank is no key's. If the view
// is closed, nothing is written, and the count is 0. It makes one call into C for all keys.
func (v *View) Routes(keys []Rank, parts []Part) int {
	return eachKey(v, keys, parts, func(at *C.squall_view, ranks *C.uint64_t, count C.size_t, out *Part, room C.size_t) C.size_t {
		return C.squall_view_routes(at, ranks, count, (*C.uint32_t)(out), room)
	})
}

// answering is a call that answers many keys: it writes what it answers, and says of how many.
type answering[Answer any] func(at *C.squall_view, ranks *C.uint64_t, count C.size_t, out *Answer, room C.size_t) C.size_t

// eachKey writes what a call answers of each key to the same index of `answers`, and returns of how many. No call is
// made if there are no keys, no places for answers, or if the view is closed.
func eachKey[Answer any](v *View, keys []Rank, answers []Answer, call answering[Answer]) int {
	if len(keys) == 0 || len(answers) == 0 {
		return 0
	}
	at := v.read()
	if at == nil {
		return 0
	}
	defer v.done()
	return int(call(at, (*C.uint64_t)(&keys[0]), C.size_t(len(keys)), &answers[0], C.size_t(len(answers))))
}

// Legs are the legs of the keys from lo on, below hi, by rising key. There are none if there are no
// keys, if a rank is above [End], or if the view is closed.
func (v *View) Legs(lo, hi Rank) []Leg {
	at := v.read()
	if at == nil {
		return nil
	}
	defer v.done()
	return allLegs(lo, hi, func(lo Rank, out *C.squall_leg) C.size_t {
		return C.squall_view_legs(at, C.uint64_t(lo), C.uint64_t(hi), out, atOnce)
	})
}

// Number is the number of the course by which routes are. It is 0 if the view is closed.
func (v *View) Number() uint32 {
	at := v.read()
	if at == nil {
		return 0
	}
	defer v.done()
	return uint32(C.squall_view_number(at))
}

// Errand opens an errand for the key, which begins at the partition to which the view routes it.
//
// Errors: [ErrLimit] if the rank is no key's; [ErrNoMemory]; [ErrClosed].
func (v *View) Errand(key Rank) (*Errand, error) {
	at := v.read()
	if at == nil {
		return nil, ErrClosed
	}
	defer v.done()
	return newErrand(C.start_errand(nil, at, C.uint64_t(key)))
}
