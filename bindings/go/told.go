package squall

// #include "library.h"
import "C"

import "sync"

// Counts says how much a router heard, or by [Router.Limit] may hear. A number that does not fit is the greatest
// one that does.
type Counts struct {
	// Cells is of how many partitions in a sub-plan of a course something was reported.
	Cells uint64
	// Spans is how many spans of keys were loaded, over all cells.
	Spans uint64
	// Opened is how many sub-plans are opened, over all courses.
	Opened uint64
	// Issues is under how many numbers plans were issued.
	Issues uint64
}

// Clashed says whether the router heard of different pairs of plans under a number above that of its course.
// Such a number has no course.
//
// Errors: [ErrNoMemory]; [ErrClosed].
func (r *Router) Clashed() (bool, error) {
	var answer C.size_t
	err := r.tell(func(at *C.squall_router) C.size_t {
		answer = C.squall_router_clashed(at)
		return answer
	})
	return err == nil && answer == 1, err
}

// Counts says how much the router heard.
//
// Errors: [ErrNoMemory]; [ErrClosed].
func (r *Router) Counts() (Counts, error) {
	var counts C.squall_counts
	err := r.tell(func(at *C.squall_router) C.size_t { return C.squall_router_counts(at, &counts, 1) })
	return Counts{uint64(counts.cells), uint64(counts.spans), uint64(counts.opened), uint64(counts.issues)}, err
}

// tell makes a call that answers a count, and returns the error of that.
func (r *Router) tell(call func(at *C.squall_router) C.size_t) error {
	var answer C.size_t
	switch open := r.handle().use(func(at *C.squall_router) { answer = call(at) }); {
	case !open:
		return ErrClosed
	case answer == C.SQUALL_NO_COUNT:
		return ErrNoMemory
	}
	return nil
}

// StatusText says how far the router's course has come, in the lines of the command `squall status`. Each
// line ends in a newline.
//
// Errors: [ErrNoMemory]; [ErrClosed].
func (r *Router) StatusText() (string, error) {
	return r.text(func(at *C.squall_router, out *C.uint8_t, room C.size_t) C.size_t {
		return C.squall_router_status_text(at, out, room)
	})
}

// Picture is a picture of how far the router's course has come, in SVG, as `squall picture` draws it.
//
// Errors: [ErrNoMemory]; [ErrClosed].
func (r *Router) Picture() (string, error) {
	return r.text(func(at *C.squall_router, out *C.uint8_t, room C.size_t) C.size_t {
		return C.squall_router_picture(at, out, room)
	})
}

// text is the text that a call writes, as those of [written] do.
func (r *Router) text(write func(at *C.squall_router, out *C.uint8_t, room C.size_t) C.size_t) (string, error) {
	text, err := writtenBy(r.handle(), ErrClosed, write)
	return string(text), err
}

// pairing is held while a call locks two views, so that no two calls wait for a view of each other: a close
// that waits keeps others from its view.
var pairing sync.Mutex

// Changes are the spans of the keys from lo on, below hi, that this view and a later one route differently,
// by rising key. Each span is as long as can be. There are none if there are no keys.
//
// Errors: [ErrClosed] if one of the views was closed, or is nil.
func (v *View) Changes(after *View, lo, hi Rank) ([]Span, error) {
	if v == after {
		return v.changesOfNone()
	}
	pairing.Lock()
	from, to := v.read(), after.read()
	pairing.Unlock()
	if from != nil {
		defer v.done()
	}
	if to != nil {
		defer after.done()
	}
	if from == nil || to == nil {
		return nil, ErrClosed
	}
	return allChanges(from, to, lo, hi), nil
}

// changesOfNone are the changes between a view and itself, for which the library would need two handles.
func (v *View) changesOfNone() ([]Span, error) {
	if v.read() == nil {
		return nil, ErrClosed
	}
	v.done()
	return nil, nil
}

// allChanges asks for the spans from lo on, then for those from the end of the last one on.
func allChanges(before, after *C.squall_view, lo, hi Rank) []Span {
	var spans []Span
	var block [atOnce]C.squall_span
	for isFull := true; isFull; {
		count := C.squall_view_changes(before, after, C.uint64_t(lo), C.uint64_t(hi), &block[0], atOnce)
		for _, span := range block[:count] {
			spans = append(spans, spanOf(span))
		}
		if isFull = count == atOnce; isFull {
			lo = Rank(block[atOnce-1].hi)
		}
	}
	return spans
}
