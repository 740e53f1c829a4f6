package squall_test

import (
	"testing"

	squall "sumelgos.example/squall/bindings/go"
)

// unmoved is the place of a key that the partition has in both plans.
func unmoved(part squall.Part) squall.Place {
	return squall.Place{Part: part, Source: part, Dest: part, Sub: squall.NoSub}
}

// noKey is what Locate writes for a rank that is no key's.
var noKey = squall.Place{Part: squall.Nowhere, Source: squall.Nowhere, Dest: squall.Nowhere, Sub: squall.NoSub}

// placed checks where a key is, one by one and in a batch, and whether it is settled.
func placed(t *testing.T, view *squall.View, key squall.Rank, wanted squall.Place, isSettled bool) {
	t.Helper()
	place, ok := view.Place(key)
	equals(t, []any{place, ok, place.IsSettled()}, []any{wanted, wanted != noKey, isSettled})
	places := []squall.Place{{}, {Part: 7}}
	equals(t, view.Locate([]squall.Rank{key}, places), 1)
	equals(t, places, []squall.Place{wanted, {Part: 7}})
}

func TestWhereKeysAre(t *testing.T) {
	router := fresh(t)
	succeeds(t, router.Loaded(1, 0, 3, squall.Key(2, 0), squall.Key(2, 5)))
	view := viewOf(t, router)
	placed(t, view, 0, unmoved(1), true)
	placed(t, view, squall.Key(2, 0), squall.Place{Part: 3, Source: 1, Dest: 3}, true)
	placed(t, view, squall.Key(2, 4), squall.Place{Part: 3, Source: 1, Dest: 3}, true)
	placed(t, view, squall.Key(2, 5), squall.Place{Part: 1, Source: 1, Dest: 3}, false)
	placed(t, view, squall.Key(3, 0), unmoved(2), true)
	placed(t, view, squall.Key(6, 0), squall.Place{Part: 3, Source: 3, Dest: 4}, false)
	placed(t, view, squall.End-1, unmoved(4), true)
	for _, rank := range []squall.Rank{squall.End, squall.End + 1, 1<<64 - 1} {
		placed(t, view, rank, noKey, false)
	}
	succeeds(t, router.Done(1, 0, 4))
	placed(t, view, squall.Key(6, 0), squall.Place{Part: 3, Source: 3, Dest: 4}, false)
	placed(t, viewOf(t, router), squall.Key(6, 0), squall.Place{Part: 4, Source: 3, Dest: 4}, true)
}

// The keys from 0:0 on move in sub-plan 1, and those from 1:5 on in sub-plan 0.
func TestPlacesInSeveralSubplans(t *testing.T) {
	router, err := squall.OpenRouter(1, []byte(`{"plan":[{"part":1,"from":[0,0],"to":"end"}]}`),
		[]byte(`{"plan":[{"part":3,"from":[0,0],"to":[1,5]},{"part":2,"from":[1,5],"to":"end"}]}`))
	succeeds(t, err)
	defer router.Close()
	succeeds(t, router.Done(1, 1, 3))
	view := viewOf(t, router)
	placed(t, view, squall.Key(1, 4), squall.Place{Part: 3, Source: 1, Dest: 3, Sub: 1}, true)
	placed(t, view, squall.Key(1, 5), squall.Place{Part: 1, Source: 1, Dest: 2, Sub: 0}, false)
	placed(t, view, squall.End-1, squall.Place{Part: 1, Source: 1, Dest: 2, Sub: 0}, false)
}

func TestPlacesOfManyKeys(t *testing.T) {
	view := viewOf(t, loaded(t))
	keys := []squall.Rank{squall.Key(2, 0), squall.Key(6, 0), squall.End, 0}
	seven := squall.Place{Part: 7, Source: 7, Dest: 7, Sub: 7}
	places := []squall.Place{seven, seven, seven, seven}
	equals(t, view.Locate(nil, places), 0)
	equals(t, view.Locate(keys, nil), 0)
	equals(t, view.Locate(keys[:0], places[:0]), 0)
	equals(t, places, []squall.Place{seven, seven, seven, seven})
	equals(t, view.Locate(keys, places[:3]), 3)
	wanted := []squall.Place{{Part: 3, Source: 1, Dest: 3}, {Part: 3, Source: 3, Dest: 4}, noKey, seven}
	equals(t, places, wanted)
	equals(t, view.Locate(keys[3:], places), 1)
	wanted[0] = unmoved(1)
	equals(t, places, wanted)
}

// A batch of any size says what single keys and routes say.
func TestBatchesAreSinglePlaces(t *testing.T) {
	view := viewOf(t, loaded(t))
	for _, count := range []int{1, 2, 16, 63, 64, 65, 1000} {
		keys, places := make([]squall.Rank, count), make([]squall.Place, count)
		for i := range keys {
			keys[i] = squall.Key(uint32(i)%12, uint32(i))
		}
		equals(t, view.Locate(keys, places), count)
		for i, key := range keys {
			place, ok := view.Place(key)
			equals(t, []any{place, ok}, []any{places[i], true})
			routes(t, view, key, place.Part)
		}
	}
}

// Each key is where the course of the router says: a move has it, or its partition is that of both plans.
func TestPlacesAreThoseOfTheCourse(t *testing.T) {
	router := fresh(t)
	view := viewOf(t, router)
	course, err := router.Course()
	succeeds(t, err)
	defer course.Close()
	for _, leg := range course.OldPlan() {
		for _, key := range []squall.Rank{leg.Lo, leg.Hi - 1} {
			wanted := unmoved(leg.Part)
			for _, move := range course.Moves() {
				if move.Lo <= key && key < move.Hi {
					wanted = squall.Place{Part: move.Source, Source: move.Source, Dest: move.Dest, Sub: move.Sub}
				}
			}
			placed(t, view, key, wanted, wanted == unmoved(leg.Part))
		}
	}
}

// What is settled stays, whatever is reported of the course, and until another one begins.
func TestSettledKeysStay(t *testing.T) {
	router := loaded(t)
	two := squall.Place{Part: 3, Source: 1, Dest: 3}
	placed(t, viewOf(t, router), squall.Key(2, 0), two, true)
	succeeds(t, router.Loaded(1, 0, 1, squall.Key(2, 0), squall.Key(3, 0)))
	succeeds(t, router.Done(1, 0, 4))
	succeeds(t, router.Opened(1, 3))
	placed(t, viewOf(t, router), squall.Key(2, 0), two, true)
	succeeds(t, router.Issued(2, oldPlan))
	placed(t, viewOf(t, router), squall.Key(2, 0), squall.Place{Part: 3, Source: 3, Dest: 1}, false)
}

func TestPlacesByAViewThatIsClosed(t *testing.T) {
	closed := viewOf(t, fresh(t))
	placed(t, closed, 0, unmoved(1), true)
	succeeds(t, closed.Close())
	for _, view := range []*squall.View{closed, nil, new(squall.View)} {
		for i := 0; i < 2; i++ {
			place, ok := view.Place(0)
			equals(t, []any{place, ok, place.IsSettled()}, []any{noKey, false, false})
			places := []squall.Place{{Part: 7}}
			equals(t, view.Locate([]squall.Rank{0}, places), 0)
			equals(t, places, []squall.Place{{Part: 7}})
		}
	}
}

// A view that is closed while others locate keys by it: each answer is right, or that of a closed view.
func TestPlacesByAViewThatIsClosedAmongReaders(t *testing.T) {
	router := loaded(t)
	two := squall.Place{Part: 3, Source: 1, Dest: 3}
	for round := 0; round < 20; round++ {
		view := viewOf(t, router)
		together(readers, func(i int) {
			places := make([]squall.Place, 2)
			for n := 0; n < 20; n++ {
				if place, ok := view.Place(squall.Key(2, 0)); ok && place != two || !ok && place != noKey {
					t.Errorf("2:0 is at %v", place)
				}
				count := view.Locate([]squall.Rank{squall.Key(2, 7), 0}, places)
				if count == 2 && (places[0] != two || places[1] != unmoved(1)) || count == 1 {
					t.Errorf("%d places: %v", count, places)
				}
				if i == 0 && n == round {
					view.Close()
				}
			}
		})
		_, ok := view.Place(0)
		equals(t, ok, false)
	}
}
