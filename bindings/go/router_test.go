package squall_test

import (
	"fmt"
	"os"
	"strings"
	"testing"

	squall "sumelgos.example/squall/bindings/go"
)

func TestTheWorkedScenario(t *testing.T) {
	router := fresh(t)
	equals(t, router.Number(), uint32(1))
	routes(t, router, squall.Key(2, 0), 1)
	succeeds(t, router.Loaded(1, 0, 3, squall.Key(2, 0), squall.Key(3, 0)))
	routes(t, router, squall.Key(2, 0), 3)
	succeeds(t, router.Done(1, 0, 4))
	routes(t, router, squall.Key(6, 0), 4)
	routes(t, router, squall.Key(8, 4294967295), 4)
	routes(t, router, squall.Key(3, 0), 2)
	routes(t, router, squall.Key(4294967294, 4294967295), 4)
	succeeds(t, router.Opened(1, 0))
	routes(t, router, squall.Key(2, 0), 3)
}

func TestRanksThatAreNoKeys(t *testing.T) {
	router := fresh(t)
	for _, rank := range []squall.Rank{squall.End, squall.End + 1, squall.Key(4294967295, 0), 1<<64 - 1} {
		routes(t, router, rank, squall.Nowhere)
		routes(t, viewOf(t, router), rank, squall.Nowhere)
	}
}

func TestTextsOfRanks(t *testing.T) {
	equals(t, squall.Key(2, 7).String(), "2:7")
	equals(t, fmt.Sprint(squall.Rank(8589934599)), "2:7")
	equals(t, fmt.Sprint(squall.Rank(0), squall.End-1), "0:0 4294967294:4294967295")
	equals(t, fmt.Sprint(squall.End, squall.End+1), "end 4294967295:1")
}

func TestTheLibraryHasTheVersionOfTheRepository(t *testing.T) {
	version, err := os.ReadFile("../../VERSION")
	succeeds(t, err)
	equals(t, squall.Version(), strings.TrimSpace(string(version)))
}

func TestReportsOutsideTheirLimits(t *testing.T) {
	router := fresh(t)
	two, three := squall.Key(2, 0), squall.Key(3, 0)
	for _, err := range []error{
		router.Loaded(0, 0, 3, two, three),
		router.Loaded(1, 10000, 3, two, three),
		router.Loaded(1, 0, 10000, two, three),
		router.Loaded(1, 0, 3, two, two),
		router.Loaded(1, 0, 3, three, two),
		router.Loaded(1, 0, 3, two, squall.End+1),
		router.Done(0, 0, 4),
		router.Done(1, 10000, 4),
		router.Done(1, 0, 10000),
		router.Opened(0, 0),
		router.Opened(1, 10000),
		router.Issued(0, nil),
	} {
		equals(t, err, squall.ErrLimit)
	}
	equals(t, len(boardOf(t, router)), 0)
	succeeds(t, router.Opened(1, 9999))
	succeeds(t, router.Loaded(1, 9999, 9999, 0, squall.End))
	routes(t, router, two, 1)
}

// Reports of another number, sub-plan or partition than a key's own change no route of it.
func TestForeignReports(t *testing.T) {
	router := fresh(t)
	two, three := squall.Key(2, 0), squall.Key(3, 0)
	succeeds(t, router.Loaded(2, 0, 3, two, three))
	succeeds(t, router.Loaded(1, 1, 3, two, three))
	succeeds(t, router.Loaded(1, 0, 4, two, three))
	routes(t, router, two, 1)
}

func TestNewerCoursesAndClashes(t *testing.T) {
	router := fresh(t)
	succeeds(t, router.Issued(2, []byte(`{"plan":[{"part":5,"from":[0,0],"to":"end"}]}`)))
	equals(t, router.Number(), uint32(2))
	routes(t, router, squall.Key(2, 0), 3)
	succeeds(t, router.Loaded(2, 0, 5, squall.Key(2, 0), squall.Key(2, 1)))
	routes(t, router, squall.Key(2, 0), 5)
	routes(t, router, squall.Key(2, 1), 3)
	succeeds(t, router.Issued(2, oldPlan))
	equals(t, router.Number(), uint32(1))
	routes(t, router, squall.Key(2, 0), 1)
}

func TestLegsOfSpans(t *testing.T) {
	router := fresh(t)
	equals(t, router.Legs(0, squall.End), []squall.Leg{
		{Lo: 0, Hi: squall.Key(3, 0), Part: 1},
		{Lo: squall.Key(3, 0), Hi: squall.Key(5, 0), Part: 2},
		{Lo: squall.Key(5, 0), Hi: squall.Key(9, 0), Part: 3},
		{Lo: squall.Key(9, 0), Hi: squall.End, Part: 4},
	})
	equals(t, router.Legs(7, squall.Key(3, 1)), []squall.Leg{
		{Lo: 7, Hi: squall.Key(3, 0), Part: 1},
		{Lo: squall.Key(3, 0), Hi: squall.Key(3, 1), Part: 2},
	})
	for _, it := range [][2]squall.Rank{{5, 5}, {6, 5}, {0, squall.End + 1}, {squall.End, squall.End}} {
		equals(t, len(router.Legs(it[0], it[1])), 0)
		equals(t, len(viewOf(t, router).Legs(it[0], it[1])), 0)
	}
}

// More legs than one call of the library asks for, a whole number of such calls among them.
func TestLegsOfAnyNumber(t *testing.T) {
	router := fresh(t)
	for count := uint32(1); count <= 200; count++ {
		lo := squall.Key(6, 2*count)
		succeeds(t, router.Loaded(1, 0, 4, lo, lo+1))
		if count != 32 && count != 200 {
			continue
		}
		// Before each span that was loaded lies one that was not, and one more after the last.
		legs := router.Legs(squall.Key(6, 2), lo+1)
		equals(t, len(legs), 2*int(count)-1)
		equals(t, legs[0], squall.Leg{Lo: squall.Key(6, 2), Hi: squall.Key(6, 3), Part: 4})
		equals(t, legs[2*count-2], squall.Leg{Lo: lo, Hi: lo + 1, Part: 4})
		equals(t, len(router.Legs(squall.Key(6, 2), lo)), 2*int(count)-2)
		equals(t, viewOf(t, router).Legs(squall.Key(6, 1), lo), router.Legs(squall.Key(6, 1), lo))
	}
}
