package squall

// #include "library.h"
import "C"

import "io"

// FrameBytes is how many bytes a frame has at most, for transports that limit their messages.
const FrameBytes = C.SQUALL_FRAME_BYTES

// anySize is no limit on the bytes of a frame but that of the format.
const anySize = -1

// Frames are the frames that a router, a partition or a leader has made, in the order in which they are to
// be sent. Each is one message, and holds for itself: what others hear of them does not depend on their
// order.
type Frames [][]byte

// WriteTo writes the frames, each by one Write, and returns how many bytes were written. After an error
// it is safe to write all of them again on another stream: a frame that comes twice changes nothing.
func (f Frames) WriteTo(to io.Writer) (int64, error) {
	var sum int64
	for _, frame := range f {
		n, err := to.Write(frame)
		sum += int64(n)
		if err != nil {
			return sum, err
		}
		if n < len(frame) {
			return sum, io.ErrShortWrite
		}
	}
	return sum, nil
}

// Board makes the frames of all that was reported to the router. There are none if nothing was.
//
// Errors: [ErrNoMemory]; [ErrClosed].
func (r *Router) Board() (Frames, error) {
	return r.BoardWithin(anySize)
}

// BoardWithin does the same in frames of at most `limit` bytes each, for a transport that limits its messages.
// A negative limit is none.
//
// Errors: [ErrTooLong] if a single report needs a longer frame. A limit of 98,337 is enough for any report, and
// one of 49 for all but courses. [ErrNoMemory]; [ErrClosed].
func (r *Router) BoardWithin(limit int) (Frames, error) {
	return r.gather(func(at *C.squall_router) C.uint32_t { return C.squall_router_gather_board(at, C.size_t(limit)) })
}

// Digest makes the frame of a digest of all that was reported to the router. Another router that hears
// it can tell by [Router.Repair] what this one lacks.
//
// Errors: [ErrTooLong] if the digest has more rows than a frame holds; [ErrNoMemory]; [ErrClosed].
func (r *Router) Digest() ([]byte, error) {
	return r.DigestWithin(anySize)
}

// DigestWithin does the same in a frame of at most `limit` bytes. A negative limit is none.
//
// Errors: [ErrTooLong] if the digest has more bytes, since it is not cut; [ErrNoMemory]; [ErrClosed].
func (r *Router) DigestWithin(limit int) ([]byte, error) {
	return alone(r.gather(func(at *C.squall_router) C.uint32_t {
		return C.squall_router_gather_digest(at, C.size_t(limit))
	}))
}

// Repair makes the frames of what the digest that was heard last does not show. There are none if it
// shows all. Goroutines that answer digests of several peers need a lock of their own around Hear and
// Repair. Without it a peer may get the repair for another one's digest, and has to ask again.
//
// Errors: [ErrNoDigest] if no digest was heard; [ErrNoMemory]; [ErrClosed].
func (r *Router) Repair() (Frames, error) {
	return r.RepairWithin(anySize)
}

// RepairWithin does the same in frames of at most `limit` bytes each. A negative limit is none.
//
// Errors: [ErrTooLong] as of [Router.BoardWithin]; [ErrNoDigest] if no digest was heard; [ErrNoMemory]; [ErrClosed].
func (r *Router) RepairWithin(limit int) (Frames, error) {
	return r.gather(func(at *C.squall_router) C.uint32_t { return C.squall_router_gather_repair(at, C.size_t(limit)) })
}

// gather makes frames by a call, and fetches them before another call can make others.
func (r *Router) gather(call func(at *C.squall_router) C.uint32_t) (Frames, error) {
	return gather(r.handle(), call, func(at *C.squall_router, out *C.uint8_t, room C.size_t) C.size_t {
		return C.squall_router_frame(at, out, room)
	})
}

// gather makes frames by a call, and fetches them by calls of next, before another call can make others.
func gather[T any](h *handle[T], call func(at *T) C.uint32_t, next func(at *T, out *C.uint8_t, room C.size_t) C.size_t) (Frames, error) {
	var frames Frames
	err := h.take(func(at *T) C.uint32_t {
		status := call(at)
		if status == C.SQUALL_OK {
			frames = fetch(func(out *C.uint8_t, room C.size_t) C.size_t { return next(at, out, room) })
		}
		return status
	})
	return frames, err
}

// alone is the only frame that was made, if frames were made.
func alone(frames Frames, err error) ([]byte, error) {
	if err != nil {
		return nil, err
	}
	return frames[0], nil
}

// fetch takes the frames that wait, by calls of next. A call writes the next frame if there is room, and says
// how many bytes it has.
func fetch(next func(out *C.uint8_t, room C.size_t) C.size_t) Frames {
	var frames Frames
	for {
		nothing, _ := bytesOf(nil)
		size := next(nothing, 0)
		if size == 0 {
			return frames
		}
		frame := make([]byte, size)
		out, room := bytesOf(frame)
		next(out, room)
		frames = append(frames, frame)
	}
}

// Hear takes one whole frame, no more and no less, of a transport that keeps messages apart. A delta is
// taken as reports. A digest is kept for [Router.Repair]. It has nothing to do with the stream of
// [Router.Feed], and any number of goroutines may call it.
//
// Errors: a [FrameFault] if the bytes are no frame; [ErrFull] if the router would tell more than [Router.Limit]
// allows; [ErrNoMemory]; [ErrClosed]. The next frame may come.
func (r *Router) Hear(frame []byte) error {
	return r.handle().take(func(at *C.squall_router) C.uint32_t {
		bytes, size := bytesOf(frame)
		return C.squall_router_hear(at, bytes, size)
	})
}

// Feed takes the next bytes of a stream of frames, which may be cut anywhere. Deltas that end in these
// bytes are taken as reports. The last digest is kept for [Router.Repair]. What is left waits for the
// next bytes. A router has one stream: several streams may share it only if each frame is fed whole
// before bytes of another stream come.
//
// Errors: a [FrameFault] if bytes are no frame: the messages before them were taken, and from now on
// the error is [ErrFailed]. [ErrFull] if the router would tell more than [Router.Limit] allows, and
// [ErrNoMemory]: after both the same bytes may be fed again. [ErrBusy] while a [Router.ReadFrom] runs.
// [ErrClosed].
func (r *Router) Feed(bytes []byte) error {
	return feed(r, bytes)
}

// ReadFrom feeds the router the bytes of a reader, as [Router.Feed] does, until the reader is at its end.
// It returns how many bytes it has read. Other calls than Feed and ReadFrom may be made meanwhile.
// A frame that the reader's end cuts waits for its other bytes, which the next Feed or ReadFrom brings.
//
// Errors: those of the reader, unless it is io.EOF; those of Feed. After [ErrFull] and [ErrNoMemory] the
// bytes that were read are kept: call ReadFrom again to go on, after ErrFull once the limit is higher. To
// stop it, close the reader: after [Router.Close] it returns once the reader has answered.
func (r *Router) ReadFrom(from io.Reader) (int64, error) {
	return readFrom(r, from)
}

// Waiting is how many bytes that were taken wait for the rest of their frame: 0 if none do, if a fault has ended
// the stream, or if the router is closed. If it is above 0 when the stream ends, the stream was cut within a
// frame.
func (r *Router) Waiting() int {
	var waiting int
	r.handle().use(func(at *C.squall_router) { waiting = int(C.squall_router_waiting(at)) })
	return waiting
}

func (r *Router) useStream(calls func(s *stream)) bool {
	return r.handle().use(func(*C.squall_router) { calls(&r.stream) })
}

func (r *Router) feedNext(bytes []byte) error {
	at, size := bytesOf(bytes)
	return routers.check(r.held.at, C.squall_router_feed(r.held.at, at, size))
}
