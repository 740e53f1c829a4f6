package squall_test

import (
	"strings"
	"testing"

	squall "sumelgos.example/squall/bindings/go"
)

// allAtFive is a plan that gives all keys to partition 5.
var allAtFive = []byte(`{"plan":[{"part":5,"from":[0,0],"to":"end"}]}`)

func clashes(t *testing.T, router *squall.Router, wanted bool) {
	t.Helper()
	clashed, err := router.Clashed()
	succeeds(t, err)
	equals(t, clashed, wanted)
}

func TestIssuesThatClash(t *testing.T) {
	router := fresh(t)
	clashes(t, router, false)
	succeeds(t, router.Issued(2, allAtFive))
	clashes(t, router, false)
	succeeds(t, router.Issued(2, oldPlan))
	clashes(t, router, true)
	equals(t, router.Number(), uint32(1))
	succeeds(t, router.Issued(3, allAtFive))
	clashes(t, router, false)
}

// told is a router to which two loads of a partition, one of another, two openings and an issue were reported.
func told(t *testing.T) *squall.Router {
	router := fresh(t)
	for _, err := range []error{
		router.Loaded(1, 0, 3, squall.Key(2, 0), squall.Key(2, 1<<31)),
		router.Loaded(1, 0, 4, squall.Key(6, 0), squall.Key(7, 0)),
		router.Loaded(1, 0, 4, squall.Key(8, 0), squall.Key(9, 0)),
		router.Opened(1, 0), router.Opened(3, 1), router.Issued(1, allAtFive),
	} {
		succeeds(t, err)
	}
	return router
}

func TestCountsOfARouter(t *testing.T) {
	counts, err := fresh(t).Counts()
	succeeds(t, err)
	equals(t, counts, squall.Counts{})
	counts, err = told(t).Counts()
	succeeds(t, err)
	equals(t, counts, squall.Counts{Cells: 2, Spans: 3, Opened: 3, Issues: 1})
}

func TestTheStatusAsLines(t *testing.T) {
	text, err := told(t).StatusText()
	succeeds(t, err)
	equals(t, text, `course 1 moves 0 of 2 sub-plans 0 of 1 open 0 loaded 10737418240 of 17179869184 keys share 583/1000
sub-plan 0 receivers 0 of 2 done
move [2:0,3:0) 1 to 3 sub 0 loaded 2147483648 of 4294967296 missing [2:2147483648,3:0)
move [6:0,9:0) 3 to 4 sub 0 loaded 8589934592 of 12884901888 missing [7:0,8:0)
`)
}

func TestThePicture(t *testing.T) {
	picture, err := told(t).Picture()
	succeeds(t, err)
	if !strings.HasPrefix(picture, "<svg ") || !strings.HasSuffix(picture, "</svg>\n") ||
		!strings.Contains(picture, ", loaded 10737418240 of 17179869184 keys, share 583/1000") {
		t.Errorf("it is %s", picture)
	}
}

func TestWhatAClosedRouterSaysOfItself(t *testing.T) {
	closed := fresh(t)
	closed.Close()
	for _, router := range []*squall.Router{closed, nil, new(squall.Router)} {
		clashed, err := router.Clashed()
		equals(t, []any{clashed, err}, []any{false, squall.ErrClosed})
		counts, err := router.Counts()
		equals(t, []any{counts, err}, []any{squall.Counts{}, squall.ErrClosed})
		text, err := router.StatusText()
		equals(t, []any{text, err}, []any{"", squall.ErrClosed})
		text, err = router.Picture()
		equals(t, []any{text, err}, []any{"", squall.ErrClosed})
	}
}

func changed(t *testing.T, before, after *squall.View, lo, hi squall.Rank, wanted ...squall.Span) {
	t.Helper()
	spans, err := before.Changes(after, lo, hi)
	succeeds(t, err)
	equals(t, spans, wanted)
}

func TestChangesOfTwoViews(t *testing.T) {
	router := fresh(t)
	before, same := viewOf(t, router), viewOf(t, router)
	succeeds(t, router.Loaded(1, 0, 3, squall.Key(2, 0), squall.Key(2, 5)))
	succeeds(t, router.Loaded(1, 0, 4, squall.Key(6, 0), squall.Key(7, 0)))
	succeeds(t, router.Loaded(1, 0, 4, squall.Key(7, 0), squall.Key(8, 0)))
	after := viewOf(t, router)
	clone, err := before.Clone()
	succeeds(t, err)
	defer clone.Close()
	first, last := squall.Span{Lo: squall.Key(2, 0), Hi: squall.Key(2, 5)}, squall.Span{Lo: squall.Key(6, 0), Hi: squall.Key(8, 0)}
	changed(t, before, before, 0, squall.End)
	changed(t, before, same, 0, squall.End)
	changed(t, before, clone, 0, squall.End)
	changed(t, before, after, 0, squall.End, first, last)
	changed(t, after, before, 0, 1<<64-1, first, last)
	changed(t, clone, after, squall.Key(2, 1), squall.Key(7, 0),
		squall.Span{Lo: squall.Key(2, 1), Hi: first.Hi}, squall.Span{Lo: last.Lo, Hi: squall.Key(7, 0)})
	changed(t, before, after, squall.Key(8, 0), squall.Key(2, 0))
	changed(t, before, after, squall.End, 1<<64-1)
}

// More than one call of the library gives, and a whole number of such calls.
func TestAnyNumberOfChanges(t *testing.T) {
	for _, count := range []uint32{1, 63, 64, 65, 128, 200} {
		router := fresh(t)
		before := viewOf(t, router)
		var spans []squall.Span
		for n := uint32(0); n < count; n++ {
			span := squall.Span{Lo: squall.Key(2, 2*n), Hi: squall.Key(2, 2*n+1)}
			succeeds(t, router.Loaded(1, 0, 3, span.Lo, span.Hi))
			spans = append(spans, span)
		}
		changed(t, before, viewOf(t, router), 0, squall.End, spans...)
	}
}

func TestChangesOfAViewThatIsClosed(t *testing.T) {
	open, closed := viewOf(t, fresh(t)), viewOf(t, fresh(t))
	closed.Close()
	for _, view := range []*squall.View{closed, nil, new(squall.View)} {
		for _, pair := range [][2]*squall.View{{view, open}, {open, view}, {view, view}} {
			spans, err := pair[0].Changes(pair[1], 0, squall.End)
			equals(t, []any{spans, err}, []any{[]squall.Span(nil), squall.ErrClosed})
		}
	}
}

// Calls that compare the same views in both orders do not wait for each other forever, nor with clones and
// with the close.
func TestChangesInManyGoroutines(t *testing.T) {
	router := fresh(t)
	before := viewOf(t, router)
	succeeds(t, router.Loaded(1, 0, 3, squall.Key(2, 0), squall.Key(3, 0)))
	after := viewOf(t, router)
	wanted := []squall.Span{{Lo: squall.Key(2, 0), Hi: squall.Key(3, 0)}}
	together(readers, func(i int) {
		one, other := before, after
		if i%2 == 0 {
			one, other = after, before
		}
		for n := 0; n < 200; n++ {
			if spans, err := one.Changes(other, 0, squall.End); err == nil {
				equals(t, spans, wanted)
			} else if err != squall.ErrClosed {
				t.Error(err)
			}
			if clone, err := one.Clone(); err == nil {
				clone.Close()
			}
			if i == 0 && n == 150 {
				before.Close()
			}
		}
	})
}
