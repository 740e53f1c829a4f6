package squall_test

import (
	"bytes"
	"testing"

	squall "sumelgos.example/squall/bindings/go"
)

func TestARouterThatIsClosed(t *testing.T) {
	closed := fresh(t)
	succeeds(t, closed.Close())
	succeeds(t, closed.Close())
	for _, router := range []*squall.Router{closed, nil, new(squall.Router)} {
		two, three := squall.Key(2, 0), squall.Key(3, 0)
		_, viewErr := router.View()
		_, errandErr := router.Errand(two)
		_, boardErr := router.Board()
		_, digestErr := router.Digest()
		_, repairErr := router.Repair()
		read, readErr := router.ReadFrom(bytes.NewReader(unhex(loadFrame)))
		equals(t, read, int64(0))
		for _, err := range []error{
			router.Loaded(1, 0, 3, two, three), router.Done(1, 0, 4), router.Opened(1, 0), router.Issued(2, newPlan),
			router.Feed(unhex(loadFrame)), router.Hear(unhex(loadFrame)), readErr,
			viewErr, errandErr, boardErr, digestErr, repairErr,
		} {
			equals(t, err, squall.ErrClosed)
		}
		routes(t, router, two, squall.Nowhere)
		equals(t, len(router.Legs(0, squall.End)), 0)
		equals(t, router.Number(), uint32(0))
		succeeds(t, router.Close())
	}
}

func TestAViewThatIsClosed(t *testing.T) {
	closed := viewOf(t, fresh(t))
	routes(t, closed, squall.Key(2, 0), 1)
	succeeds(t, closed.Close())
	succeeds(t, closed.Close())
	for _, view := range []*squall.View{closed, nil, new(squall.View)} {
		routes(t, view, squall.Key(2, 0), squall.Nowhere)
		parts := []squall.Part{7}
		equals(t, view.Routes([]squall.Rank{0}, parts), 0)
		equals(t, parts, []squall.Part{7})
		equals(t, len(view.Legs(0, squall.End)), 0)
		equals(t, view.Number(), uint32(0))
		_, err := view.Errand(0)
		equals(t, err, squall.ErrClosed)
		_, err = view.Clone()
		equals(t, err, squall.ErrClosed)
		succeeds(t, view.Close())
	}
}

func TestAnErrandThatIsClosed(t *testing.T) {
	closed := errandOf(t, fresh(t), squall.Key(2, 0))
	succeeds(t, closed.Close())
	succeeds(t, closed.Close())
	for _, errand := range []*squall.Errand{closed, nil, new(squall.Errand)} {
		equals(t, errand.Asked(), squall.Nowhere)
		equals(t, errand.Number(), uint32(0))
		next, err := errand.Heed(squall.Reply{Kind: squall.ReplyHeld})
		equals(t, []any{next, err}, []any{squall.Next(0), squall.ErrClosed})
		succeeds(t, errand.Close())
	}
}
