package squall

// #include "library.h"
import "C"

// ReplyKind is what a partition replies when it is asked for a key. The zero value is no reply.
type ReplyKind uint32

const (
	// ReplyHeld says that the partition holds the key.
	ReplyHeld ReplyKind = C.SQUALL_HELD + 1
	// ReplyMoved says that it gave the key to the reply's partition in the course of its number.
	ReplyMoved ReplyKind = C.SQUALL_MOVED + 1
	// ReplyPending says that the key is on its way to it from the reply's partition.
	ReplyPending ReplyKind = C.SQUALL_PENDING + 1
	// ReplyBehind says that it has not heard of the course by which the key was sent to it.
	ReplyBehind ReplyKind = C.SQUALL_BEHIND + 1
	// ReplyElsewhere says that the partition neither has the key nor awaits it: the old plan has it at the reply's
	// partition.
	ReplyElsewhere ReplyKind = C.SQUALL_ELSEWHERE + 1
)

// Reply is the reply of a partition that was asked for a key.
type Reply struct {
	// Kind says which reply it is, and which of the other fields are looked at.
	Kind ReplyKind
	// Part is the partition that ReplyMoved, ReplyPending and ReplyElsewhere name.
	Part Part
	// Number is the number of the course that ReplyMoved names.
	Number uint32
}

// Next is what to do after a reply. The zero value comes with an error.
type Next uint32

const (
	// NextServed says that the key was found, and nothing is left to do.
	NextServed Next = C.SQUALL_SERVED + 1
	// NextAsk says to ask the partition of [Errand.Asked], to which the key went.
	NextAsk Next = C.SQUALL_ASK + 1
	// NextAgain says to ask the same partition again, later.
	NextAgain Next = C.SQUALL_AGAIN + 1
	// NextLost says that replies contradict each other: start a new errand once the router heard more.
	NextLost Next = C.SQUALL_LOST + 1
)

var nextNames = map[Next]string{NextServed: "served", NextAsk: "ask", NextAgain: "again", NextLost: "lost"}

// String is the name of what to do, such as "ask".
func (n Next) String() string {
	if name, ok := nextNames[n]; ok {
		return name
	}
	return "none"
}

// Errand is the search for the partition that holds a key. It begins where a router or a view sends the
// key, and follows the partitions' replies. [Router.Errand] and [View.Errand] open one.
type Errand struct {
	held handle[C.squall_errand]
}

// newErrand is the errand that was started, if it was.
func newErrand(started C.struct_started) (*Errand, error) {
	if started.status != C.SQUALL_OK {
		if started.errand != nil {
			C.end_errand(started.errand)
		}
		return nil, errorOf(uint32(started.status), C.SQUALL_NO_PLACE)
	}
	errand := new(Errand)
	errand.held.hold(errand, &errands, started.errand)
	return errand, nil
}

// Close closes the errand. It always returns nil.
func (e *Errand) Close() error {
	e.handle().close(e, func() {})
	return nil
}

func (e *Errand) handle() *handle[C.squall_errand] {
	if e == nil {
		return nil
	}
	return &e.held
}

// Asked is the partition to ask. It is [Nowhere] if the errand is closed.
func (e *Errand) Asked() Part {
	part := Nowhere
	e.handle().use(func(at *C.squall_errand) { part = Part(C.squall_errand_asked(at)) })
	return part
}

// Number is the number of the last ReplyMoved that was followed, which the partition that is asked has to
// know. It is 0 before the first, and if the errand is closed.
func (e *Errand) Number() uint32 {
	var number uint32
	e.handle().use(func(at *C.squall_errand) { number = uint32(C.squall_errand_number(at)) })
	return number
}

// Heed takes the reply of the partition that was asked, and says what to do. After [NextServed] or
// [NextLost] it says the same for each reply.
//
// Errors: [ErrLimit] if there is no such reply: the kind is none, or the partition that it names is above
// 9999; [ErrClosed].
func (e *Errand) Heed(reply Reply) (Next, error) {
	var next C.uint32_t
	open := e.handle().use(func(at *C.squall_errand) {
		// The zero kind becomes a number that is no reply either.
		next = C.squall_errand_heed(at, C.uint32_t(reply.Kind-1), C.uint32_t(reply.Part), C.uint32_t(reply.Number))
	})
	switch {
	case !open:
		return 0, ErrClosed
	case next == C.SQUALL_BAD_REPLY:
		return 0, ErrLimit
	}
	return Next(next + 1), nil
}
