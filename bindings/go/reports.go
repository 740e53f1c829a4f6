package squall

// #include "library.h"
import "C"

// FrameLoaded is the frame of the report of [Router.Loaded], for programs that send a report and keep no
// router. A router takes it by [Router.Hear] or [Router.Feed].
//
// Errors: [ErrLimit] if there is no such report, as [Router.Loaded] says; [ErrNoMemory].
func FrameLoaded(number, sub uint32, part Part, lo, hi Rank) ([]byte, error) {
	return written(ErrLimit, func(out *C.uint8_t, room C.size_t) C.size_t {
		return C.squall_frame_loaded(C.uint32_t(number), C.uint32_t(sub), C.uint32_t(part), C.uint64_t(lo), C.uint64_t(hi), out, room)
	})
}

// FrameDone is the frame of the report of [Router.Done]. Errors are as those of [FrameLoaded].
func FrameDone(number, sub uint32, part Part) ([]byte, error) {
	return written(ErrLimit, func(out *C.uint8_t, room C.size_t) C.size_t {
		return C.squall_frame_done(C.uint32_t(number), C.uint32_t(sub), C.uint32_t(part), out, room)
	})
}

// FrameOpened is the frame of the report of [Router.Opened]. Errors are as those of [FrameLoaded].
func FrameOpened(number, sub uint32) ([]byte, error) {
	return written(ErrLimit, func(out *C.uint8_t, room C.size_t) C.size_t {
		return C.squall_frame_opened(C.uint32_t(number), C.uint32_t(sub), out, room)
	})
}

// reportSize is room for a load, a completion or an opening, so that these are written by the first call.
const reportSize = 64

// written is the frame that a call writes. The call says how many bytes the frame has, and writes them if
// there is room. If it says 0, there is no frame, and the error is `none`.
func written(none error, write func(out *C.uint8_t, room C.size_t) C.size_t) ([]byte, error) {
	for size := C.size_t(reportSize); ; {
		frame := make([]byte, size)
		out, room := bytesOf(frame)
		size = write(out, room)
		switch {
		case size == 0:
			return nil, none
		case size == C.SQUALL_NO_COUNT:
			return nil, ErrNoMemory
		case size <= room:
			return frame[:size:size], nil
		}
	}
}

// writtenBy is what a call writes that needs the handle open, as those of [written] do.
func writtenBy[T any](h *handle[T], none error, write func(at *T, out *C.uint8_t, room C.size_t) C.size_t) ([]byte, error) {
	return with(h, func(at *T) ([]byte, error) {
		return written(none, func(out *C.uint8_t, room C.size_t) C.size_t { return write(at, out, room) })
	})
}
