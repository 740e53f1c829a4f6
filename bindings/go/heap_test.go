//go:build squall_heap

// Tests with a heap that refuses the library one allocation: go test -tags squall_heap, over the archive.
// Each call is made once for each allocation that it asks for, with that one refused. It then returns
// ErrNoMemory, nothing has changed, and the same call succeeds afterwards; or it did without.

package squall

import (
	"bytes"
	"encoding/hex"
	"io"
	"os"
	"reflect"
	"runtime"
	"testing"
	"testing/iotest"
	"time"
)

func file(t *testing.T, name string) []byte {
	t.Helper()
	text, err := os.ReadFile("../../examples/" + name)
	succeed(t, err)
	return text
}

func bytesOfHex(t *testing.T, text string) []byte {
	t.Helper()
	bytes, err := hex.DecodeString(text)
	succeed(t, err)
	return bytes
}

func succeed(t *testing.T, err error) {
	t.Helper()
	if err != nil {
		t.Fatal(err)
	}
}

const frameOfALoad = "53510101000000290000000000000001000000010000000000000003000000000100000002000000000000000300000000"

// busy is a router that has taken a load and heard a digest.
func busy(t *testing.T) *Router {
	t.Helper()
	router, err := OpenRouter(1, file(t, "old.json"), file(t, "new.json"))
	succeed(t, err)
	succeed(t, router.Loaded(1, 0, 3, 0, 7))
	succeed(t, router.Hear(bytesOfHex(t, "53510102000000080000000000000000")))
	return router
}

// seen is what a caller can see of a router.
type seen struct {
	board  Frames
	legs   []Leg
	number uint32
}

func seenOf(t *testing.T, router *Router) seen {
	t.Helper()
	board, err := router.Board()
	succeed(t, err)
	return seen{board, router.Legs(0, End), router.Number()}
}

func TestCallsWithoutMemory(t *testing.T) {
	frame, plan := bytesOfHex(t, frameOfALoad), file(t, "old.json")
	for name, call := range map[string]func(*Router) error{
		"Loaded": func(r *Router) error { return r.Loaded(1, 0, 3, Key(2, 0), Key(3, 0)) },
		"Done":   func(r *Router) error { return r.Done(1, 0, 4) },
		"Opened": func(r *Router) error { return r.Opened(1, 0) },
		"Issued": func(r *Router) error { return r.Issued(2, plan) },
		"Feed":   func(r *Router) error { return r.Feed(frame) },
		"Hear":   func(r *Router) error { return r.Hear(frame) },
		// With so low a limit that the frame is joined to a copy of the router's board.
		"Feed, limited": func(r *Router) error { return firstOf(r.Limit(Counts{Cells: 1, Spans: 2}), r.Feed(frame)) },
		"Hear, limited": func(r *Router) error { return firstOf(r.Limit(Counts{Cells: 1, Spans: 2}), r.Hear(frame)) },
		"Board":         func(r *Router) error { _, err := r.Board(); return err },
		"Digest":        func(r *Router) error { _, err := r.Digest(); return err },
		"Repair":        func(r *Router) error { _, err := r.Repair(); return err },
		"View":          func(r *Router) error { view, err := r.View(); view.Close(); return err },
	} {
		t.Run(name, func(t *testing.T) {
			see := func(router *Router) any { return seenOf(t, router) }
			refuseEachOf(t, func() *Router { return busy(t) }, see, call)
		})
	}
}

func TestOpeningsWithoutMemory(t *testing.T) {
	oldPlan, newPlan := file(t, "old.json"), file(t, "new.json")
	for number, more := 1, true; more; number++ {
		refuse(number)
		router, err := OpenRouter(1, oldPlan, newPlan)
		more = asked() >= number
		refuse(0)
		if (err == nil) == (router == nil) || err != nil && err != ErrNoMemory || more && number == 1 && err == nil {
			t.Errorf("allocation %d: %v", number, err)
		}
		router.Close()
	}
}

// What a reader gave is not lost if there was no memory for it: the next call feeds it.
func TestReadersWithoutMemory(t *testing.T) {
	for name, open := range map[string]func(*testing.T) streamed{
		"router":    func(t *testing.T) streamed { return busy(t) },
		"partition": func(t *testing.T) streamed { return busyPartition(t) },
		"leader":    func(t *testing.T) streamed { return busyLeader(t) },
	} {
		t.Run(name, func(t *testing.T) {
			answered := 0
			for number, more := 1, true; more; number++ {
				var failed bool
				more, failed = readWithout(t, number, open(t))
				if failed {
					answered++
				}
			}
			if answered == 0 {
				t.Error("no allocation was refused")
			}
		})
	}
}

// streamed is a router, a partition or a leader.
type streamed interface {
	closer
	io.ReaderFrom
	Feed(bytes []byte) error
}

// readWithout has it read a frame in two calls, with the allocation of that number refused. It says whether so
// many were made, and whether a call failed.
func readWithout(t *testing.T, number int, it streamed) (more, failed bool) {
	t.Helper()
	defer it.Close()
	frame, err := FrameDone(5, 0, 7)
	succeed(t, err)
	from := iotest.HalfReader(bytes.NewReader(frame))
	refuse(number)
	n, err := it.ReadFrom(io.LimitReader(from, 20))
	if err == nil {
		n, err = readOn(it, from, n)
	}
	more = asked() >= number
	refuse(0)
	if failed = err != nil; failed {
		if err != ErrNoMemory {
			t.Fatal(err)
		}
		if number%2 == 0 {
			succeed(t, it.Feed(nil))
		}
		n, err = readOn(it, from, n)
	}
	succeed(t, err)
	heard := boardOf(t, it)
	succeed(t, it.Hear(frame))
	if again := boardOf(t, it); n != int64(len(frame)) || !reflect.DeepEqual(heard, again) {
		t.Errorf("allocation %d: %d bytes, and %v is known of %v", number, n, heard, again)
	}
	return more, failed
}

// readOn reads the rest, and says how many bytes that are after those of before.
func readOn(it streamed, from io.Reader, before int64) (int64, error) {
	n, err := it.ReadFrom(from)
	return before + n, err
}

// firstOf is the first of the errors that is one.
func firstOf(errs ...error) error {
	for _, err := range errs {
		if err != nil {
			return err
		}
	}
	return nil
}

// viewed is a busy router with a view of it, and how many blocks were allocated before both.
func viewed(t *testing.T) (int, *Router, *View) {
	t.Helper()
	settle(t)
	before := allocated()
	router := busy(t)
	view, err := router.View()
	succeed(t, err)
	return before, router, view
}

// What the documentation says of routes, and each block is freed by Close.
func TestCallsThatAllocateNothing(t *testing.T) {
	before, router, view := viewed(t)
	refuse(0)
	router.Route(7)
	router.Legs(0, End)
	clone, err := view.Clone()
	succeed(t, err)
	view.Route(7)
	clone.Legs(0, End)
	errand, err := clone.Errand(7)
	succeed(t, err)
	if asked() != 0 {
		t.Errorf("%d allocations", asked())
	}
	router.Close()
	clone.Close()
	errand.Close()
	if allocated() == before {
		t.Error("the table of the view is freed too early")
	}
	view.Close()
	if allocated() != before {
		t.Errorf("%d blocks are left of %d", allocated(), before)
	}
}

// dropped opens what is never closed.
func dropped(t *testing.T) {
	for n := 0; n < 20; n++ {
		router := busy(t)
		view, err := router.View()
		succeed(t, err)
		view.Route(7)
		_, err = view.Errand(7)
		succeed(t, err)
	}
}

func TestFinalizers(t *testing.T) {
	settle(t)
	before := allocated()
	dropped(t)
	if allocated() == before {
		t.Fatal("nothing was allocated")
	}
	settle(t)
	if allocated() != before {
		t.Errorf("%d blocks are left of %d", allocated(), before)
	}
}

// opened opens views and errands, and closes them if isClosed. It says how many of each. Beside each it
// tries to open some that fail.
func opened(t *testing.T, isClosed bool) int {
	const count = 2000
	router, err := OpenRouter(1, file(t, "old.json"), file(t, "new.json"))
	succeed(t, err)
	defer router.Close()
	for n := 0; n < count; n++ {
		view, err := router.View()
		succeed(t, err)
		clone, err := view.Clone()
		succeed(t, err)
		errand, err := clone.Errand(7)
		succeed(t, err)
		failing(t, router)
		if isClosed {
			clone.Close()
			errand.Close()
			view.Close()
		}
	}
	return count
}

// failing tries to open a router, a view and an errand.
func failing(t *testing.T, router *Router) {
	_, routerErr := OpenRouter(0, nil, nil)
	_, errandErr := router.Errand(End)
	refuse(1)
	_, viewErr := router.View()
	refuse(0)
	if routerErr != ErrLimit || errandErr != ErrLimit || viewErr != ErrNoMemory {
		t.Fatal(routerErr, errandErr, viewErr)
	}
}

// Rooms are freed too, which the library's heap does not count.
func TestRooms(t *testing.T) {
	freesRooms(t, opened)
}

// freesRooms checks that rooms and blocks of what `open` opens are freed by Close, or else by finalizers.
func freesRooms(t *testing.T, open func(t *testing.T, isClosed bool) int) {
	t.Helper()
	for _, isClosed := range []bool{true, false} {
		open(t, isClosed)
		settle(t)
		before, blocks := inUse(), allocated()
		count := open(t, isClosed)
		settle(t)
		// A room has at least 24 bytes, and the heap keeps some freed blocks for each thread.
		if grown := inUse() - before; grown > count*12 {
			t.Errorf("closed %v: %d bytes are in use of %d that were opened", isClosed, grown, count)
		}
		if allocated() != blocks {
			t.Errorf("closed %v: %d blocks are left of %d", isClosed, allocated(), blocks)
		}
	}
}

// settle returns when the finalizers have run of all that is unreachable. A view is found unreachable by
// the second collection, since the runtime knows its sync.Pool until then. What one collection finds
// may be finalized beside the mark of this round, and is before that of the next.
func settle(t *testing.T) {
	t.Helper()
	for round := 0; round < 4; round++ {
		ran := make(chan struct{})
		runtime.SetFinalizer(new([64]byte), func(*[64]byte) { close(ran) })
		runtime.GC()
		select {
		case <-ran:
		case <-time.After(20 * time.Second):
			t.Fatal("a finalizer has not run")
		}
	}
}
