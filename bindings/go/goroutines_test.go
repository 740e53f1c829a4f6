package squall_test

import (
	"fmt"
	"runtime"
	"sync"
	"testing"

	squall "sumelgos.example/squall/bindings/go"
)

const readers = 8

// together runs a function in some goroutines at once, and waits for all of them.
func together(count int, run func(i int)) {
	var group sync.WaitGroup
	for i := 0; i < count; i++ {
		group.Add(1)
		go func(i int) {
			defer group.Done()
			run(i)
		}(i)
	}
	group.Wait()
}

// roots are how many keys a writer moves from partition 1 to 2, one after another.
const roots = 100

// published is the newest view, and how many loads it has.
type published struct {
	mu    sync.RWMutex
	view  *squall.View
	loads uint32
}

func (p *published) publish(t *testing.T, router *squall.Router, loads uint32) {
	view, err := router.View()
	if err != nil {
		t.Error(err)
	}
	p.mu.Lock()
	defer p.mu.Unlock()
	p.view.Close()
	p.view, p.loads = view, loads
}

// wrong says what is wrong with the newest view: it has the loads of one moment, and those alone. By
// turns it is asked key by key and in a batch.
func (p *published) wrong(batch bool) (string, uint32) {
	p.mu.RLock()
	defer p.mu.RUnlock()
	keys, parts := make([]squall.Rank, roots), make([]squall.Part, roots)
	for root := range keys {
		keys[root] = squall.Key(uint32(root), 7)
		if !batch {
			parts[root], _ = p.view.Route(keys[root])
		}
	}
	if batch {
		p.view.Routes(keys, parts)
	}
	for root, part := range parts {
		wanted := squall.Part(1)
		if uint32(root) < p.loads {
			wanted = 2
		}
		if part != wanted {
			return fmt.Sprintf("after %d loads, root %d is routed to %d", p.loads, root, part), p.loads
		}
	}
	return "", p.loads
}

func TestOneWriterAndManyReaders(t *testing.T) {
	whole := `{"plan":[{"part":%d,"from":[0,0],"to":"end"}]}`
	router, err := squall.OpenRouter(1, []byte(fmt.Sprintf(whole, 1)), []byte(fmt.Sprintf(whole, 2)))
	succeeds(t, err)
	defer router.Close()
	var newest published
	newest.publish(t, router, 0)
	together(readers+1, func(i int) {
		if i == readers {
			for root := uint32(0); root < roots; root++ {
				if err := router.Loaded(1, 0, 2, squall.Key(root, 0), squall.Key(root+1, 0)); err != nil {
					t.Error(err)
				}
				newest.publish(t, router, root+1)
			}
			return
		}
		for known := uint32(0); known < roots; {
			wrong, loads := newest.wrong(i%2 == 0)
			if wrong != "" || loads < known {
				t.Errorf("%s; %d loads after %d", wrong, loads, known)
				return
			}
			known = loads
		}
	})
	newest.view.Close()
}

// rightOrClosed makes each call of a view, and checks that it is right, or that of a closed view.
func rightOrClosed(t *testing.T, view *squall.View) {
	part, ok := view.Route(squall.Key(2, 0))
	if ok && part != 3 {
		t.Errorf("2:0 is routed to %d", part)
	}
	parts := []squall.Part{7}
	if count := view.Routes([]squall.Rank{squall.Key(3, 0)}, parts); count == 1 && parts[0] != 2 {
		t.Errorf("3:0 is routed to %d in a batch", parts[0])
	}
	if legs := view.Legs(0, squall.End); len(legs) != 0 && len(legs) != 5 {
		t.Errorf("the legs are %v", legs)
	}
	if number := view.Number(); number > 1 {
		t.Errorf("the number is %d", number)
	}
	if errand, err := view.Errand(squall.Key(2, 0)); err == nil && errand.Asked() != 3 || err != nil && err != squall.ErrClosed {
		t.Errorf("an errand asks %d: %v", errand.Asked(), err)
	}
	if clone, err := view.Clone(); err == nil {
		if part, _ := clone.Route(squall.Key(2, 0)); part != 3 {
			t.Errorf("a clone routes 2:0 to %d", part)
		}
		clone.Close()
	}
}

// A view that is closed while others use it: each answer is right or says that it is closed.
func TestAViewThatIsClosedAmongReaders(t *testing.T) {
	router := loaded(t)
	for round := 0; round < 20; round++ {
		view := viewOf(t, router)
		together(readers, func(i int) {
			for n := 0; n < 10; n++ {
				rightOrClosed(t, view)
				if i == 0 && n == round/2 {
					view.Close()
				}
			}
		})
		routes(t, view, squall.Key(2, 0), squall.Nowhere)
	}
}

// Goroutines report to one router in any order, by calls and by frames, while others read it. In the end
// its board is that of a router that took the same reports one after another.
func TestReportsOfManyGoroutines(t *testing.T) {
	const each = 40
	router, wanted := fresh(t), fresh(t)
	together(readers, func(i int) {
		outbox := fresh(t)
		for n := 0; n < each; n++ {
			lo := squall.Key(uint32(i), uint32(2*n))
			if err := router.Loaded(1, 0, squall.Part(i), lo, lo+1); err != nil {
				t.Error(err)
			}
			if err := outbox.Done(2, uint32(n), squall.Part(i)); err != nil {
				t.Error(err)
			}
			router.Route(lo)
			router.Legs(lo, lo+100)
		}
		for _, frame := range boardOf(t, outbox) {
			if err := router.Hear(frame); err != nil {
				t.Error(err)
			}
		}
	})
	for i := 0; i < readers; i++ {
		for n := 0; n < each; n++ {
			lo := squall.Key(uint32(i), uint32(2*n))
			succeeds(t, wanted.Loaded(1, 0, squall.Part(i), lo, lo+1))
			succeeds(t, wanted.Done(2, uint32(n), squall.Part(i)))
		}
	}
	equals(t, boardOf(t, router), boardOf(t, wanted))
}

// One of the goroutines that close a router closes it, and the calls of others return.
func TestARouterThatIsClosedAmongOthers(t *testing.T) {
	for round := 0; round < 20; round++ {
		router := loaded(t)
		errand := errandOf(t, router, squall.Key(2, 0))
		together(readers, func(i int) {
			for n := 0; n < 10; n++ {
				if part, ok := router.Route(squall.Key(2, 0)); ok && part != 3 {
					t.Errorf("2:0 is routed to %d", part)
				}
				if err := router.Done(1, 0, 4); err != nil && err != squall.ErrClosed {
					t.Error(err)
				}
				next, err := errand.Heed(squall.Reply{Kind: squall.ReplyHeld})
				if err == nil && next != squall.NextServed || err != nil && err != squall.ErrClosed {
					t.Errorf("%v, %v", next, err)
				}
				if i%2 == 0 && n == round/2 {
					router.Close()
					errand.Close()
				}
			}
		})
	}
}

// What is dropped without Close is closed by finalizers while others of its kind are used. What they
// free is counted by the tests of heap_test.go.
func TestWhatIsNeverClosed(t *testing.T) {
	for round := 0; round < 20; round++ {
		for n := 0; n < 20; n++ {
			router, err := squall.OpenRouter(1, oldPlan, newPlan)
			succeeds(t, err)
			succeeds(t, router.Loaded(1, 0, 3, squall.Key(2, 0), squall.Key(3, 0)))
			view, err := router.View()
			succeeds(t, err)
			errand, err := view.Errand(squall.Key(2, 0))
			succeeds(t, err)
			routes(t, view, squall.Key(2, 0), 3)
			equals(t, errand.Asked(), squall.Part(3))
		}
		runtime.GC()
	}
}
