package squall_test

import (
	"encoding/hex"
	"errors"
	"os"
	"reflect"
	"testing"

	squall "sumelgos.example/squall/bindings/go"
)

// The example plans of the repository: [2:0,3:0) moves from partition 1 to 3 and [6:0,9:0) from 3 to 4,
// all in sub-plan 0.
var (
	oldPlan = example("old.json")
	newPlan = example("new.json")
)

const (
	// Partition 3 has loaded [2:0,3:0) in sub-plan 0 of course 1.
	loadFrame = "5351010100000029000000000000000100000001000000000000000300000000" +
		"0100000002000000000000000300000000"
	// Sub-plan 0 of course 1 was opened.
	openingFrame = "535101010000001000000001000000010000000100000000"
	emptyDelta   = "53510101000000080000000000000000"
	emptyDigest  = "53510102000000080000000000000000"
)

func example(name string) []byte {
	text, err := os.ReadFile("../../examples/" + name)
	if err != nil {
		panic(err)
	}
	return text
}

func unhex(text string) []byte {
	bytes, err := hex.DecodeString(text)
	if err != nil {
		panic(err)
	}
	return bytes
}

// fresh is a router of course 1 over the example plans, which is closed when the test ends.
func fresh(t testing.TB) *squall.Router {
	t.Helper()
	router, err := squall.OpenRouter(1, oldPlan, newPlan)
	succeeds(t, err)
	t.Cleanup(func() { router.Close() })
	return router
}

// loaded is a fresh router to which the load of [2:0,3:0) was reported.
func loaded(t testing.TB) *squall.Router {
	t.Helper()
	router := fresh(t)
	succeeds(t, router.Loaded(1, 0, 3, squall.Key(2, 0), squall.Key(3, 0)))
	return router
}

func viewOf(t testing.TB, router *squall.Router) *squall.View {
	t.Helper()
	view, err := router.View()
	succeeds(t, err)
	t.Cleanup(func() { view.Close() })
	return view
}

func boardOf(t testing.TB, router *squall.Router) squall.Frames {
	t.Helper()
	frames, err := router.Board()
	succeeds(t, err)
	return frames
}

func succeeds(t testing.TB, err error) {
	t.Helper()
	if err != nil {
		t.Fatal(err)
	}
}

func failsWith(t testing.TB, err, wanted error) {
	t.Helper()
	if !errors.Is(err, wanted) {
		t.Errorf("the error is %v, and not %v", err, wanted)
	}
}

func equals(t testing.TB, got, wanted any) {
	t.Helper()
	if !reflect.DeepEqual(got, wanted) {
		t.Errorf("it is %v, and not %v", got, wanted)
	}
}

// routes checks where the router or the view sends a key.
func routes(t testing.TB, by interface {
	Route(squall.Rank) (squall.Part, bool)
}, key squall.Rank, wanted squall.Part) {
	t.Helper()
	part, ok := by.Route(key)
	if part != wanted || ok != (wanted != squall.Nowhere) {
		t.Errorf("%v is routed to %v (%v), and not to %v", key, part, ok, wanted)
	}
}
