package squall

// #include "library.h"
import "C"

import "io"

// Partition keeps which keys a partition holds, gave and loaded. It gives and loads keys while they move, and
// replies to requests for them. The rows stay with the program, which makes each call in the transaction in
// which it moves the rows.
//
// Or else it keeps a log of the calls that returned no error. The same calls, made of a new partition of the
// same course, lead to the same partition.
type Partition struct {
	held   handle[C.squall_part]
	stream stream
}

// Chunk says that the keys from Lo on, below Hi, are on their way from the partition Source to Dest. They move
// in the sub-plan Sub of the course Number. The program sends their rows and the chunk to Dest.
type Chunk struct {
	Lo, Hi       Rank
	Number, Sub  uint32
	Source, Dest Part
}

func chunkOf(chunk C.squall_chunk) Chunk {
	return Chunk{
		Lo: Rank(chunk.lo), Hi: Rank(chunk.hi), Number: uint32(chunk.number), Sub: uint32(chunk.sub),
		Source: Part(chunk.source), Dest: Part(chunk.dest),
	}
}

// inC is the chunk as the library has it.
func (c Chunk) inC() C.squall_chunk {
	return C.squall_chunk{
		lo: C.uint64_t(c.Lo), hi: C.uint64_t(c.Hi), number: C.uint32_t(c.Number), sub: C.uint32_t(c.Sub),
		source: C.uint32_t(c.Source), dest: C.uint32_t(c.Dest),
	}
}

// OpenPartition opens the partition of that number with the keys that the old plan of the course gives it. It
// has heard nothing. The course may be closed then.
//
// Errors: [ErrLimit] if the number is above 9999; [ErrNoMemory]; [ErrClosed] if the course was closed, or is
// nil.
func OpenPartition(id Part, course *Course) (*Partition, error) {
	return with(course.handle(), func(at *C.squall_course) (*Partition, error) {
		return newPartition(func(room *C.squall_part) { C.squall_part_open(C.uint32_t(id), at, room) })
	})
}

// newPartition is the partition that a call opens in the room that it is given.
func newPartition(open func(room *C.squall_part)) (*Partition, error) {
	return openFor(new(Partition), &partitions, open)
}

// Close closes the partition. It always returns nil.
func (p *Partition) Close() error {
	p.handle().close(p, func() { p.stream.unfed = nil })
	return nil
}

func (p *Partition) handle() *handle[C.squall_part] {
	if p == nil {
		return nil
	}
	return &p.held
}

// Feed takes the next bytes of a stream of frames, which may be cut anywhere, as [Router.Feed] does. Deltas
// that end in these bytes are taken as reports. The last digest is kept for [Partition.Repair]. What is left
// waits for the next bytes.
//
// Errors: a [FrameFault] if bytes are no frame: the messages before them were taken, and from now on
// the error is [ErrFailed]. Such a call belongs into a log too. [ErrNoMemory], after which the same bytes
// may be fed again. [ErrBusy] while a [Partition.ReadFrom] runs. [ErrClosed].
func (p *Partition) Feed(bytes []byte) error {
	return feed(p, bytes)
}

// ReadFrom feeds the partition the bytes of a reader, as [Partition.Feed] does, until the reader is at its end.
// It returns how many bytes it has read. Other calls than Feed and ReadFrom may be made meanwhile. A program
// that keeps a log of its calls feeds the bytes itself, since it has to know in which order they come.
//
// Errors: those of the reader, unless it is io.EOF; those of Feed. After [ErrNoMemory] the bytes that were read
// are kept: call ReadFrom again to go on. To stop it, close the reader: after [Partition.Close] it returns once
// the reader has answered.
func (p *Partition) ReadFrom(from io.Reader) (int64, error) {
	return readFrom(p, from)
}

// Waiting is how many bytes that were taken wait for the rest of their frame: 0 if none do, if a fault has ended
// the stream, or if the partition is closed. If it is above 0 when the stream ends, the stream was cut within a
// frame.
func (p *Partition) Waiting() int {
	var waiting int
	p.handle().use(func(at *C.squall_part) { waiting = int(C.squall_part_waiting(at)) })
	return waiting
}

func (p *Partition) useStream(calls func(s *stream)) bool {
	return p.handle().use(func(*C.squall_part) { calls(&p.stream) })
}

func (p *Partition) feedNext(bytes []byte) error {
	at, size := bytesOf(bytes)
	return partitions.check(p.held.at, C.squall_part_feed(p.held.at, at, size))
}

// Hear takes one whole frame, as [Router.Hear] does. A delta is taken as reports. A digest is kept for
// [Partition.Repair]. It has nothing to do with the stream of [Partition.Feed].
//
// Errors: a [FrameFault] if the bytes are no frame; [ErrNoMemory]; [ErrClosed]. The next frame may come.
func (p *Partition) Hear(frame []byte) error {
	return p.handle().take(func(at *C.squall_part) C.uint32_t {
		bytes, size := bytesOf(frame)
		return C.squall_part_hear(at, bytes, size)
	})
}

// Give gives the first keys, at most max, of those that go out in the sub-plan opened last and that the
// partition still holds. It holds them no longer: send their rows and the chunk to its Dest.
//
// Errors: [ErrEnded] if [Partition.CloseCourse] closed its newest course; [ErrNotOpen] if no sub-plan of that is
// opened; [ErrNothingLeft] if no such key is held; [ErrZeroMax] if max is 0; [ErrNoMemory]; [ErrClosed].
func (p *Partition) Give(max uint64) (Chunk, error) {
	return p.give(func(at *C.squall_part, out *C.squall_chunk) C.uint32_t {
		return C.squall_part_give(at, C.uint64_t(max), out)
	})
}

// GiveAt gives one key, for which a client waits, as [Partition.Give] does.
//
// Errors: [ErrLimit] if the rank is no key's; [ErrClosed]. Else the first of these that is so:
//   - [ErrEnded] if [Partition.CloseCourse] closed its newest course;
//   - [ErrNotOpen] if no sub-plan of that is opened;
//   - [ErrNotOutgoing] if the key does not go out in the sub-plan opened last;
//   - [ErrGiven] if it was given under this course before;
//   - [ErrNotHeld] if it is not held;
//   - [ErrNoMemory].
func (p *Partition) GiveAt(key Rank) (Chunk, error) {
	return p.give(func(at *C.squall_part, out *C.squall_chunk) C.uint32_t {
		return C.squall_part_give_at(at, C.uint64_t(key), out)
	})
}

// give is the chunk that a call writes, unless it answers an error.
func (p *Partition) give(call func(at *C.squall_part, out *C.squall_chunk) C.uint32_t) (Chunk, error) {
	var chunk C.squall_chunk
	err := p.handle().take(func(at *C.squall_part) C.uint32_t { return call(at, &chunk) })
	return chunkOf(chunk), err
}

// Load takes a chunk. Its keys that were not loaded under its number are loaded and held now. The first result
// is true then: keep the rows, and send the frame of [FrameLoaded] for the whole chunk. It is false without an
// error if each key was loaded before, even if it was given since: drop the rows.
//
// Errors: [ErrNotOpen] if the chunk's sub-plan is not opened under its course; [ErrStranger] if that course is
// not known, or does not bring these keys from Source to this partition in that sub-plan; [ErrLimit] if there
// is no such chunk: a number 0, a sub-plan or partition above 9999, a rank above [End], or no keys;
// [ErrNoMemory]; [ErrClosed].
func (p *Partition) Load(chunk Chunk) (bool, error) {
	status, in := C.uint32_t(C.SQUALL_CLOSED), chunk.inC()
	p.handle().use(func(at *C.squall_part) { status = C.squall_part_load(at, &in) })
	if status == C.SQUALL_LOADED_BEFORE {
		return false, nil
	}
	return status == C.SQUALL_OK, errorOf(uint32(status), C.SQUALL_NO_PLACE)
}

// Fresh are the spans of the keys of the chunk that are new here, by rising key: neither loaded under its
// number nor held. Put the chunk's rows of these keys in place before Load, and no others: the partition may
// have changed the row of any other key since.
//
// Errors: those of Load.
func (p *Partition) Fresh(chunk Chunk) ([]Span, error) {
	var spans []Span
	in := chunk.inC()
	err := p.handle().take(func(at *C.squall_part) C.uint32_t {
		for span := (C.squall_span{}); ; spans = append(spans, spanOf(span)) {
			status := C.squall_part_fresh(at, &in, span.hi, &span)
			if status != C.SQUALL_OK || span.lo == span.hi {
				return status
			}
		}
	})
	if err != nil {
		return nil, err
	}
	return spans, nil
}

// Finish reports that the partition has all keys that the sub-plan of its newest course brings it: send the
// frame of [FrameDone]. A repeat reports the same.
//
// Errors: [ErrClosed]. Else the first of these that is so:
//   - [ErrNotOpen] if the sub-plan is not opened;
//   - [ErrNotAll] if keys are missing;
//   - [ErrNothingDue] if the sub-plan brings it none;
//   - [ErrNoMemory].
func (p *Partition) Finish(sub uint32) error {
	return p.handle().take(func(at *C.squall_part) C.uint32_t { return C.squall_part_finish(at, C.uint32_t(sub)) })
}

// CloseCourse ends what the partition gives in the newest course that it knows, and returns the number of that
// course. It returns 0 if the partition is closed. Give and GiveAt return [ErrEnded] then, until it hears of a
// newer course. It loads as before. A repeat changes nothing, and returns the same. Put the call into the log
// before the number is passed on.
func (p *Partition) CloseCourse() uint32 {
	var number uint32
	p.handle().use(func(at *C.squall_part) { number = uint32(C.squall_part_close_course(at)) })
	return number
}

// CourseClosed says whether the partition gives no more in the course of that number. It is false if it has not
// heard of the course, or if the partition is closed.
func (p *Partition) CourseClosed(number uint32) bool {
	closed := false
	p.handle().use(func(at *C.squall_part) { closed = C.squall_part_course_closed(at, C.uint32_t(number)) == 1 })
	return closed
}

// Serve is the reply to a request for the key, for [Errand.Heed] of the client. `after` is what
// [Errand.Number] returned when the request was sent: 0 if it followed no ReplyMoved.
//
// Errors: [ErrLimit] if the rank is no key's; [ErrClosed].
func (p *Partition) Serve(key Rank, after uint32) (Reply, error) {
	var answer C.squall_answer
	err := p.handle().take(func(at *C.squall_part) C.uint32_t {
		return C.squall_part_serve(at, C.uint64_t(key), C.uint32_t(after), &answer)
	})
	if err != nil {
		return Reply{}, err
	}
	return Reply{ReplyKind(answer.reply + 1), Part(answer.part), uint32(answer.number)}, nil
}

// Held are the spans of the keys that the partition holds, by rising key. Neighbours do not touch. There are
// none if the partition is closed.
func (p *Partition) Held() []Span {
	return allOf(p.handle(), spanOf, func(at *C.squall_part, from C.size_t, out *C.squall_span) C.size_t {
		return C.squall_part_held(at, from, out, atOnce)
	})
}

// Given are the spans of the keys that it gave in the course of that number, likewise. There are none if it
// does not know the course.
func (p *Partition) Given(number uint32) []Span {
	return allOf(p.handle(), spanOf, func(at *C.squall_part, from C.size_t, out *C.squall_span) C.size_t {
		return C.squall_part_given(at, C.uint32_t(number), from, out, atOnce)
	})
}

// Loaded are the spans of the keys that it loaded in the course of that number, likewise.
func (p *Partition) Loaded(number uint32) []Span {
	return allOf(p.handle(), spanOf, func(at *C.squall_part, from C.size_t, out *C.squall_span) C.size_t {
		return C.squall_part_loaded(at, C.uint32_t(number), from, out, atOnce)
	})
}

// Board makes the frames of all that the partition knows and reports. There are none if that is nothing.
//
// Errors: [ErrNoMemory]; [ErrClosed].
func (p *Partition) Board() (Frames, error) {
	return p.BoardWithin(anySize)
}

// BoardWithin does the same in frames of at most `limit` bytes each, for a transport that limits its messages.
// A negative limit is none.
//
// Errors: [ErrTooLong] if a single report needs a longer frame. A limit of 98,337 is enough for any report, and
// one of 49 for all but courses. [ErrNoMemory]; [ErrClosed].
func (p *Partition) BoardWithin(limit int) (Frames, error) {
	return p.gather(func(at *C.squall_part) C.uint32_t { return C.squall_part_gather_board(at, C.size_t(limit)) })
}

// Digest makes the frame of a digest of that, as [Router.Digest] does.
//
// Errors: [ErrTooLong] if the digest has more rows than a frame holds; [ErrNoMemory]; [ErrClosed].
func (p *Partition) Digest() ([]byte, error) {
	return p.DigestWithin(anySize)
}

// DigestWithin does the same in a frame of at most `limit` bytes. A negative limit is none.
//
// Errors: [ErrTooLong] if the digest has more bytes, since it is not cut; [ErrNoMemory]; [ErrClosed].
func (p *Partition) DigestWithin(limit int) ([]byte, error) {
	return alone(p.gather(func(at *C.squall_part) C.uint32_t {
		return C.squall_part_gather_digest(at, C.size_t(limit))
	}))
}

// Repair makes the frames of what the digest that was heard last does not show, as [Router.Repair] does. There
// are none if it shows all.
//
// Errors: [ErrNoDigest] if no digest was heard; [ErrNoMemory]; [ErrClosed].
func (p *Partition) Repair() (Frames, error) {
	return p.RepairWithin(anySize)
}

// RepairWithin does the same in frames of at most `limit` bytes each. A negative limit is none.
//
// Errors: [ErrTooLong] as of [Partition.BoardWithin]; [ErrNoDigest] if no digest was heard; [ErrNoMemory]; [ErrClosed].
func (p *Partition) RepairWithin(limit int) (Frames, error) {
	return p.gather(func(at *C.squall_part) C.uint32_t { return C.squall_part_gather_repair(at, C.size_t(limit)) })
}

// gather makes frames by a call, and fetches them before another call can make others.
func (p *Partition) gather(call func(at *C.squall_part) C.uint32_t) (Frames, error) {
	return gather(p.handle(), call, func(at *C.squall_part, out *C.uint8_t, room C.size_t) C.size_t {
		return C.squall_part_frame(at, out, room)
	})
}
