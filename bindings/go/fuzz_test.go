package squall_test

import (
	"errors"
	"reflect"
	"testing"

	squall "sumelgos.example/squall/bindings/go"
)

// FuzzFrames feeds any bytes whole, and cut in two: the same is taken, and the same fault found. What is
// heard as one frame is what a stream takes of it.
func FuzzFrames(f *testing.F) {
	for _, hex := range []string{loadFrame, loadFrame + openingFrame, emptyDelta, emptyDigest + loadFrame} {
		for _, cut := range []uint{0, 1, 7, 8, 20, 1000} {
			f.Add(unhex(hex), cut)
		}
	}
	for _, it := range badFrames {
		f.Add(unhex(it.hex), uint(3))
		f.Add(unhex(loadFrame+it.hex), uint(50))
	}
	f.Fuzz(func(t *testing.T, bytes []byte, cut uint) {
		whole, pieces, message := fresh(t), fresh(t), fresh(t)
		at := int(cut % uint(len(bytes)+1))
		wanted := whole.Feed(bytes)
		got := pieces.Feed(bytes[:at])
		if got == nil {
			got = pieces.Feed(bytes[at:])
		}
		equals(t, got, wanted)
		equals(t, boardOf(t, pieces), boardOf(t, whole))
		heard := message.Hear(bytes)
		var fault squall.FrameFault
		if heard == nil {
			equals(t, boardOf(t, message), boardOf(t, whole))
		} else if !errors.As(heard, &fault) || len(boardOf(t, message)) != 0 {
			t.Errorf("%v, %v", heard, boardOf(t, message))
		}
	})
}

// FuzzPlans opens routers of any text: each has a course, or the error says why the text is no plan.
func FuzzPlans(f *testing.F) {
	f.Add(oldPlan)
	for _, it := range noPlans {
		f.Add([]byte(it.text))
	}
	f.Fuzz(func(t *testing.T, text []byte) {
		router, err := squall.OpenRouter(1, text, newPlan)
		var plan *squall.PlanError
		if err == nil {
			defer router.Close()
			legs := router.Legs(0, squall.End)
			equals(t, legs[0].Lo, squall.Rank(0))
			equals(t, legs[len(legs)-1].Hi, squall.End)
		} else if !errors.As(err, &plan) || plan.New {
			t.Error(err)
		}
		again := fresh(t)
		issued := again.Issued(2, text)
		if (issued == nil) != (err == nil) || issued != nil && !reflect.DeepEqual(errors.Unwrap(issued), errors.Unwrap(err)) {
			t.Errorf("%v, but issued %v", err, issued)
		}
	})
}
