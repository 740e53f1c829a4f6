package squall

// #include "library.h"
import "C"

import "io"

// Leader begins one course after another, and opens their sub-plans, one at a time. It hears from partitions
// what is done, and sends all that it knows. Only one leader may run at a time.
//
// A program keeps a log of the calls that returned no error, each before its frames are sent. The same calls,
// made of a new leader of the same plan and number, lead to the same leader.
type Leader struct {
	held   handle[C.squall_leader]
	stream stream
}

// OpenLeader opens a leader: the keys lie as the plan says, and no course is begun. Its first course has the
// number last + 1: give 0 if no number was used before. The text of the plan is JSON, as docs/FORMATS.md says.
//
// Errors: a [PlanError] if the text is no plan; [ErrNoMemory].
func OpenLeader(plan []byte, last uint32) (*Leader, error) {
	return newLeader(func(room *C.squall_leader) {
		text, size := bytesOf(plan)
		C.squall_leader_open(text, size, C.uint32_t(last), room)
	})
}

// ResumeLeader opens a leader that has begun this course. It is as if [Leader.Begin] had just begun it, and it
// has heard nothing else. The course may be closed then.
//
// Errors: [ErrNoMemory]; [ErrClosed] if the course was closed, or is nil.
func ResumeLeader(course *Course) (*Leader, error) {
	return with(course.handle(), func(at *C.squall_course) (*Leader, error) {
		return newLeader(func(room *C.squall_leader) { C.squall_leader_resume(at, room) })
	})
}

// newLeader is the leader that a call opens in the room that it is given.
func newLeader(open func(room *C.squall_leader)) (*Leader, error) {
	return openFor(new(Leader), &leaders, open)
}

// Close closes the leader. Courses of it go on. It always returns nil.
func (l *Leader) Close() error {
	l.handle().close(l, func() { l.stream.unfed = nil })
	return nil
}

func (l *Leader) handle() *handle[C.squall_leader] {
	if l == nil {
		return nil
	}
	return &l.held
}

// Feed takes the next bytes of a stream of frames, which may be cut anywhere, as [Router.Feed] does. Deltas
// that end in these bytes are taken as reports. The last digest is kept for [Leader.Repair]. What is left
// waits for the next bytes.
//
// Errors: a [FrameFault] if bytes are no frame: the messages before them were taken, and from now on
// the error is [ErrFailed]. Such a call belongs into a log too. [ErrNoMemory], after which the same bytes
// may be fed again. [ErrBusy] while a [Leader.ReadFrom] runs. [ErrClosed].
func (l *Leader) Feed(bytes []byte) error {
	return feed(l, bytes)
}

// ReadFrom feeds the leader the bytes of a reader, as [Leader.Feed] does, until the reader is at its end.
// It returns how many bytes it has read. Other calls than Feed and ReadFrom may be made meanwhile. A program
// that keeps a log of its calls feeds the bytes itself, since it has to know in which order they come.
//
// Errors: those of the reader, unless it is io.EOF; those of Feed. After [ErrNoMemory] the bytes that were read
// are kept: call ReadFrom again to go on. To stop it, close the reader: after [Leader.Close] it returns once
// the reader has answered.
func (l *Leader) ReadFrom(from io.Reader) (int64, error) {
	return readFrom(l, from)
}

// Waiting is how many bytes that were taken wait for the rest of their frame: 0 if none do, if a fault has ended
// the stream, or if the leader is closed. If it is above 0 when the stream ends, the stream was cut within a
// frame.
func (l *Leader) Waiting() int {
	var waiting int
	l.handle().use(func(at *C.squall_leader) { waiting = int(C.squall_leader_waiting(at)) })
	return waiting
}

func (l *Leader) useStream(calls func(s *stream)) bool {
	return l.handle().use(func(*C.squall_leader) { calls(&l.stream) })
}

func (l *Leader) feedNext(bytes []byte) error {
	at, size := bytesOf(bytes)
	return leaders.check(l.held.at, C.squall_leader_feed(l.held.at, at, size))
}

// Hear takes one whole frame, as [Router.Hear] does. A delta is taken as reports. A digest is kept for
// [Leader.Repair]. It has nothing to do with the stream of [Leader.Feed].
//
// Errors: a [FrameFault] if the bytes are no frame; [ErrNoMemory]; [ErrClosed]. The next frame may come.
func (l *Leader) Hear(frame []byte) error {
	return l.handle().take(func(at *C.squall_leader) C.uint32_t {
		bytes, size := bytesOf(frame)
		return C.squall_leader_hear(at, bytes, size)
	})
}

// Begin begins the course from the newest plan to this one. Its number is the last one plus 1, and its plan is
// the newest one then. [Leader.Board] sends the report of it.
//
// Errors: a [PlanError] if the text is no plan; [ErrRunning] if the course begun last is not over;
// [ErrNoNumber] if the greatest number is used; [ErrNoMemory]; [ErrClosed].
func (l *Leader) Begin(plan []byte) error {
	return l.handle().take(func(at *C.squall_leader) C.uint32_t {
		text, size := bytesOf(plan)
		return C.squall_leader_begin(at, text, size)
	})
}

// BeginFrom begins the course from the old plan to the new one, whether or not the course begun last is over,
// which may end early so. Its number is the last one plus 1, and the new plan is the newest one then.
// [Leader.Board] sends the report of it.
//
// The old plan has to say where the keys are. Each partition holds what that plan gives it. It has closed the course
// before by [Partition.CloseCourse] if such a key was to leave it. What was given is loaded.
//
// Errors: a [PlanError] if a text is no plan, of the first one that is none; [ErrNoNumber] if the greatest number
// is used; [ErrNoMemory]; [ErrClosed].
func (l *Leader) BeginFrom(oldPlan, newPlan []byte) error {
	return l.handle().take(func(at *C.squall_leader) C.uint32_t {
		oldText, oldSize := bytesOf(oldPlan)
		newText, newSize := bytesOf(newPlan)
		return C.squall_leader_begin_from(at, oldText, oldSize, newText, newSize)
	})
}

// Course opens the course that the leader began last. It needs the leader no longer. No plan is copied.
//
// Errors: [ErrIdle] if no course is begun; [ErrNoMemory]; [ErrClosed].
func (l *Leader) Course() (*Course, error) {
	return with(l.handle(), func(at *C.squall_leader) (*Course, error) {
		course, err := newCourse(func(room *C.squall_course) { C.squall_leader_course(at, room) })
		if err == ErrClosed {
			// The leader is open, so that it has begun none.
			err = ErrIdle
		}
		return course, err
	})
}

// OpenNext opens the next sub-plan of the course begun last, and returns its number. [Leader.Board] sends the
// report of it.
//
// Errors: a [NotDoneError] if a partition has not reported that it has all keys of the sub-plan opened last;
// [ErrNoMore] if all sub-plans are opened, and the last one is done; [ErrIdle] if no course is begun;
// [ErrNoMemory]; [ErrClosed].
func (l *Leader) OpenNext() (uint32, error) {
	var out [2]C.uint32_t
	err := l.handle().take(func(at *C.squall_leader) C.uint32_t { return C.squall_leader_open_next(at, &out[0], 2) })
	switch err {
	case nil:
		return uint32(out[0]), nil
	case ErrNotDone:
		return 0, &NotDoneError{Part: Part(out[1]), Sub: uint32(out[0])}
	}
	return 0, err
}

// Finished says whether all sub-plans of the course begun last are opened, and the last one is done. It is false
// if no course is begun, or if the leader is closed.
func (l *Leader) Finished() bool {
	finished := false
	l.handle().use(func(at *C.squall_leader) { finished = C.squall_leader_finished(at) == 1 })
	return finished
}

// Board makes the frames of all that the leader heard and reported itself. There are none if that is nothing.
//
// Errors: [ErrNoMemory]; [ErrClosed].
func (l *Leader) Board() (Frames, error) {
	return l.BoardWithin(anySize)
}

// BoardWithin does the same in frames of at most `limit` bytes each, for a transport that limits its messages.
// A negative limit is none.
//
// Errors: [ErrTooLong] if a single report needs a longer frame. A limit of 98,337 is enough for any report, and
// one of 49 for all but courses. [ErrNoMemory]; [ErrClosed].
func (l *Leader) BoardWithin(limit int) (Frames, error) {
	return l.gather(func(at *C.squall_leader) C.uint32_t { return C.squall_leader_gather_board(at, C.size_t(limit)) })
}

// Digest makes the frame of a digest of that, as [Router.Digest] does.
//
// Errors: [ErrTooLong] if the digest has more rows than a frame holds; [ErrNoMemory]; [ErrClosed].
func (l *Leader) Digest() ([]byte, error) {
	return l.DigestWithin(anySize)
}

// DigestWithin does the same in a frame of at most `limit` bytes. A negative limit is none.
//
// Errors: [ErrTooLong] if the digest has more bytes, since it is not cut; [ErrNoMemory]; [ErrClosed].
func (l *Leader) DigestWithin(limit int) ([]byte, error) {
	return alone(l.gather(func(at *C.squall_leader) C.uint32_t {
		return C.squall_leader_gather_digest(at, C.size_t(limit))
	}))
}

// Repair makes the frames of what the digest that was heard last does not show, as [Router.Repair] does. There
// are none if it shows all.
//
// Errors: [ErrNoDigest] if no digest was heard; [ErrNoMemory]; [ErrClosed].
func (l *Leader) Repair() (Frames, error) {
	return l.RepairWithin(anySize)
}

// RepairWithin does the same in frames of at most `limit` bytes each. A negative limit is none.
//
// Errors: [ErrTooLong] as of [Leader.BoardWithin]; [ErrNoDigest] if no digest was heard; [ErrNoMemory]; [ErrClosed].
func (l *Leader) RepairWithin(limit int) (Frames, error) {
	return l.gather(func(at *C.squall_leader) C.uint32_t { return C.squall_leader_gather_repair(at, C.size_t(limit)) })
}

// gather makes frames by a call, and fetches them before another call can make others.
func (l *Leader) gather(call func(at *C.squall_leader) C.uint32_t) (Frames, error) {
	return gather(l.handle(), call, func(at *C.squall_leader, out *C.uint8_t, room C.size_t) C.size_t {
		return C.squall_leader_frame(at, out, room)
	})
}
