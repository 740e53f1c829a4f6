package squall

// #include "library.h"
import "C"

import (
	"io"
	"runtime"
	"sync"
)

// handle is what a router, a course, an errand, a partition or a leader has of the library. The zero value is
// closed, and so is nil.
type handle[T any] struct {
	mu   sync.Mutex
	at   *T // nil once it is closed
	kind *kind[T]
}

// hold makes the handle that is open the one of its owner, which is closed once it is unreachable.
func (h *handle[T]) hold(owner io.Closer, kind *kind[T], at *T) {
	h.kind, h.at = kind, at
	runtime.SetFinalizer(owner, io.Closer.Close)
}

// owner is a pointer to what has a handle.
type owner[T any] interface {
	io.Closer
	handle() *handle[T]
}

// openFor is the owner of the handle that a call opens in the room that it is given.
func openFor[T any, Owner owner[T]](it Owner, kind *kind[T], call func(room *T)) (Owner, error) {
	at, err := kind.open(call)
	if err != nil {
		var none Owner
		return none, err
	}
	it.handle().hold(it, kind, at)
	return it, nil
}

// close closes the handle of its owner, if it is open, and then makes a call under its lock.
func (h *handle[T]) close(owner io.Closer, then func()) {
	h.use(func(at *T) {
		h.kind.end(at)
		h.at = nil
		then()
		runtime.SetFinalizer(owner, nil)
	})
}

// use makes calls with the handle, which nobody else uses meanwhile, and says whether it is open.
func (h *handle[T]) use(calls func(at *T)) bool {
	if h == nil {
		return false
	}
	h.mu.Lock()
	defer h.mu.Unlock()
	if h.at == nil {
		return false
	}
	calls(h.at)
	return true
}

// take makes a call that answers a status, and returns the error of that.
func (h *handle[T]) take(call func(at *T) C.uint32_t) error {
	err := error(ErrClosed)
	h.use(func(at *T) { err = h.kind.check(at, call(at)) })
	return err
}

// with is what a call answers that needs the handle open.
func with[T, Answer any](h *handle[T], call func(at *T) (Answer, error)) (Answer, error) {
	var answer Answer
	err := error(ErrClosed)
	h.use(func(at *T) { answer, err = call(at) })
	return answer, err
}
