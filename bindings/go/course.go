package squall

// #include "library.h"
import "C"

import "unsafe"

// Course is a numbered change from an old plan to a new one. It says which keys move, from which
// partition to which, and in which sub-plan. Sub-plans are worked off one after the other, from 0. In
// each of them a partition gives keys to at most one other. A course never changes.
type Course struct {
	held handle[C.squall_course]
}

// Move says that the keys from Lo on, below Hi, move from the partition Source to the partition Dest in
// the sub-plan Sub, counted from 0.
type Move struct {
	Lo, Hi       Rank
	Source, Dest Part
	Sub          uint32
}

func moveOf(move C.squall_move) Move {
	return Move{Rank(move.lo), Rank(move.hi), Part(move.source), Part(move.dest), uint32(move.sub)}
}

// OpenCourse opens the course `number`, from 1 on, which leads from the old plan to the new one. The texts
// of the plans are JSON, as docs/FORMATS.md says.
//
// Errors: [ErrLimit] if the number is 0; a [PlanError] of the old text, or else of the new one, if it is
// no plan; [ErrNoMemory].
func OpenCourse(number uint32, oldPlan, newPlan []byte) (*Course, error) {
	return newCourse(func(room *C.squall_course) {
		oldAt, oldLen := bytesOf(oldPlan)
		newAt, newLen := bytesOf(newPlan)
		C.squall_course_open(C.uint32_t(number), oldAt, oldLen, newAt, newLen, room)
	})
}

// Course opens the course by which the router routes now, which is its newest. The course needs neither
// the router nor its later reports. No plan is copied.
//
// Errors: [ErrNoMemory]; [ErrClosed].
func (r *Router) Course() (*Course, error) {
	return with(r.handle(), func(at *C.squall_router) (*Course, error) {
		return newCourse(func(room *C.squall_course) { C.squall_course_newest(at, room) })
	})
}

// FirstCourse opens the course with which the router was opened. Errors are as those of [Router.Course].
func (r *Router) FirstCourse() (*Course, error) {
	return with(r.handle(), func(at *C.squall_router) (*Course, error) {
		return newCourse(func(room *C.squall_course) { C.squall_course_first(at, room) })
	})
}

// newCourse is the course that a call opens in the room that it is given.
func newCourse(open func(room *C.squall_course)) (*Course, error) {
	return openFor(new(Course), &courses, open)
}

// Close closes the course. Routers and other courses that share its plans keep them. It always returns nil.
func (c *Course) Close() error {
	c.handle().close(c, func() {})
	return nil
}

func (c *Course) handle() *handle[C.squall_course] {
	if c == nil {
		return nil
	}
	return &c.held
}

// Number is the number of the course, from 1 on. It is 0 if the course is closed.
func (c *Course) Number() uint32 {
	var number uint32
	c.handle().use(func(at *C.squall_course) { number = uint32(C.squall_course_number(at)) })
	return number
}

// Subplans is how many sub-plans the course has. It is 0 if nothing moves, or if the course is closed.
func (c *Course) Subplans() uint32 {
	var count uint32
	c.handle().use(func(at *C.squall_course) { count = uint32(C.squall_course_subplans(at)) })
	return count
}

// Moves are the moves of all sub-plans by rising key. Each key that moves lies in exactly one, and no other
// key in any. There are none if the course is closed.
func (c *Course) Moves() []Move {
	return allOf(c.handle(), moveOf, func(at *C.squall_course, from C.size_t, out *C.squall_move) C.size_t {
		return C.squall_course_moves(at, from, out, atOnce)
	})
}

// OldPlan is the old plan as ranges by rising key, from the first key to [End]. Part is the partition
// that has the keys of a range by this plan. Neighbours have different partitions. There are no ranges if
// the course is closed.
func (c *Course) OldPlan() []Leg {
	return allOf(c.handle(), legOf, func(at *C.squall_course, from C.size_t, out *C.squall_leg) C.size_t {
		return C.squall_course_old(at, from, out, atOnce)
	})
}

// NewPlan is the new plan as ranges, as [Course.OldPlan] is the old one.
func (c *Course) NewPlan() []Leg {
	return allOf(c.handle(), legOf, func(at *C.squall_course, from C.size_t, out *C.squall_leg) C.size_t {
		return C.squall_course_new(at, from, out, atOnce)
	})
}

// OldText is the old plan as a JSON text: its ranges by rising key, without spaces. It reads as the same plan.
//
// Errors: [ErrNoMemory]; [ErrClosed].
func (c *Course) OldText() (string, error) {
	return c.text(func(at *C.squall_course, out *C.uint8_t, room C.size_t) C.size_t {
		return C.squall_course_old_text(at, out, room)
	})
}

// NewText is the new plan as a JSON text, as [Course.OldText] is the old one.
//
// Errors: [ErrNoMemory]; [ErrClosed].
func (c *Course) NewText() (string, error) {
	return c.text(func(at *C.squall_course, out *C.uint8_t, room C.size_t) C.size_t {
		return C.squall_course_new_text(at, out, room)
	})
}

// Left is the plan of where the course leaves the keys if it ends early, as a JSON text: [Leader.BeginFrom]
// begins the next course from it. A key of the spans is loaded, and at its new partition. Any other is at
// its old one. The spans may overlap, and come in any order.
//
// Errors: [ErrLimit] if a span has no keys or ends above [End], or if the plan would have more than 4096
// ranges; [ErrNoMemory]; [ErrClosed].
func (c *Course) Left(loaded []Span) (string, error) {
	// The library takes no null pointer, even for no spans.
	spans := make([]C.squall_span, 0, len(loaded)+1)
	for _, it := range loaded {
		spans = append(spans, C.squall_span{lo: C.uint64_t(it.Lo), hi: C.uint64_t(it.Hi)})
	}
	first, count := &spans[:1][0], C.size_t(len(spans))
	return c.textOr(ErrLimit, func(at *C.squall_course, out *C.uint8_t, room C.size_t) C.size_t {
		return C.squall_course_left(at, first, count, out, room)
	})
}

// text is the text that a call writes, as those of [written] do.
func (c *Course) text(write func(at *C.squall_course, out *C.uint8_t, room C.size_t) C.size_t) (string, error) {
	return c.textOr(ErrClosed, write)
}

// textOr is the same. If there is no text, the error is none.
func (c *Course) textOr(none error, write func(at *C.squall_course, out *C.uint8_t, room C.size_t) C.size_t) (string, error) {
	text, err := writtenBy(c.handle(), none, write)
	return string(text), err
}

// Receivers are the partitions to which keys move in the sub-plan, by rising number. There are none if
// there is no such sub-plan. Once each of them has reported that it is done, the next sub-plan may be
// opened.
//
// Errors: [ErrNoMemory]; [ErrClosed].
func (c *Course) Receivers(sub uint32) ([]Part, error) {
	return with(c.handle(), func(at *C.squall_course) ([]Part, error) { return receivers(at, C.uint32_t(sub)) })
}

// receivers asks for the partitions in pieces, each twice as long as the one before, until one is not full.
func receivers(at *C.squall_course, sub C.uint32_t) ([]Part, error) {
	var parts []Part
	for room := atOnce; ; room *= 2 {
		next := make([]Part, room)
		out := (*C.uint32_t)(unsafe.Pointer(&next[0]))
		count := C.squall_course_receivers(at, sub, C.size_t(len(parts)), out, C.size_t(room))
		if count == C.SQUALL_NO_COUNT {
			return nil, ErrNoMemory
		}
		parts = append(parts, next[:count]...)
		if count < C.size_t(room) {
			return parts, nil
		}
	}
}

// Frame is the frame of the report that this course was issued. A router that hears it knows the course.
//
// Errors: [ErrNoMemory]; [ErrClosed].
func (c *Course) Frame() ([]byte, error) {
	return writtenBy(c.handle(), ErrClosed, func(at *C.squall_course, out *C.uint8_t, room C.size_t) C.size_t {
		return C.squall_course_frame(at, out, room)
	})
}
