package squall_test

import (
	"testing"

	squall "sumelgos.example/squall/bindings/go"
)

func TestRoutesOfManyKeys(t *testing.T) {
	view := viewOf(t, loaded(t))
	keys := []squall.Rank{squall.Key(2, 0), squall.Key(3, 0), squall.End, 0}
	parts := []squall.Part{7, 7, 7, 7}
	equals(t, view.Routes(nil, parts), 0)
	equals(t, view.Routes(keys, nil), 0)
	equals(t, view.Routes(keys[:0], parts[:0]), 0)
	equals(t, view.Routes(keys, parts[:3]), 3)
	equals(t, parts, []squall.Part{3, 2, squall.Nowhere, 7})
	equals(t, view.Routes(keys[3:], parts), 1)
	equals(t, parts, []squall.Part{1, 2, squall.Nowhere, 7})
}

// A batch of any size answers what single routes answer.
func TestBatchesAreSingleRoutes(t *testing.T) {
	router := loaded(t)
	view := viewOf(t, router)
	for _, count := range []int{1, 2, 16, 63, 1000} {
		keys, parts := make([]squall.Rank, count), make([]squall.Part, count)
		for i := range keys {
			keys[i] = squall.Key(uint32(i)%12, uint32(i))
		}
		equals(t, view.Routes(keys, parts), count)
		for i, key := range keys {
			routes(t, view, key, parts[i])
			routes(t, router, key, parts[i])
		}
	}
}

func TestViewsStayTheSame(t *testing.T) {
	router := fresh(t)
	before := viewOf(t, router)
	succeeds(t, router.Loaded(1, 0, 3, squall.Key(2, 0), squall.Key(3, 0)))
	succeeds(t, router.Issued(2, oldPlan))
	after := viewOf(t, router)
	again, err := before.Clone()
	succeeds(t, err)
	router.Close()
	before.Close()
	equals(t, []uint32{again.Number(), after.Number()}, []uint32{1, 2})
	routes(t, again, squall.Key(2, 0), 1)
	routes(t, after, squall.Key(2, 0), 3)
	routes(t, before, squall.Key(2, 0), squall.Nowhere)
	equals(t, again.Legs(squall.Key(2, 0), squall.Key(4, 0)), []squall.Leg{
		{Lo: squall.Key(2, 0), Hi: squall.Key(3, 0), Part: 1},
		{Lo: squall.Key(3, 0), Hi: squall.Key(4, 0), Part: 2},
	})
	last, err := again.Clone()
	succeeds(t, err)
	again.Close()
	routes(t, last, squall.Key(2, 0), 1)
	last.Close()
}
