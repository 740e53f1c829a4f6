package squall_test

import (
	"errors"
	"fmt"
	"strings"
	"testing"

	squall "sumelgos.example/squall/bindings/go"
)

// Texts that are no plans, by the cases of docs/FORMATS.md.
var noPlans = []struct {
	text  string
	fault squall.PlanFault
	entry int
	key   squall.Rank
	says  string
}{
	{"", squall.PlanJSON, -1, 0, "Json"},
	{`{"plan":[`, squall.PlanJSON, -1, 0, "Json"},
	{"{\"plan\":\"\xff\"}", squall.PlanJSON, -1, 0, "Json"},
	{"[]", squall.PlanShape, -1, 0, "Shape"},
	{`{"plan":{}}`, squall.PlanShape, -1, 0, "Shape"},
	{`{"plan":[{"part":1,"from":[0,0]}]}`, squall.PlanShape, 0, 0, "Shape 0"},
	{`{"plan":[{"part":1,"from":[0,4294967296],"to":"end"},{"part":10000,"from":[0,0],"to":"end"}]}`,
		squall.PlanBadPart, 1, 0, "BadPart 1"},
	{`{"plan":[{"part":1,"from":[4294967295,1],"to":"end"}]}`, squall.PlanBadBound, 0, 0, "BadBound 0"},
	{`{"plan":[{"part":1,"from":[4294967295,0],"to":"end"}]}`, squall.PlanEmptyRange, 0, 0, "EmptyRange 0"},
	{`{"plan":[{"part":1,"from":[0,0],"to":[3,5]},{"part":2,"from":[3,0],"to":"end"}]}`,
		squall.PlanOverlap, -1, squall.Key(3, 0), "Overlap 3:0"},
	{`{"plan":[{"part":1,"from":[0,0],"to":[3,5]},{"part":2,"from":[3,6],"to":"end"}]}`,
		squall.PlanGap, -1, squall.Key(3, 5), "Gap 3:5"},
	{`{"plan":[]}`, squall.PlanGap, -1, 0, "Gap 0:0"},
	{`{"plan":[` + strings.Repeat(`{"part":1,"from":[0,0],"to":"end"},`, 4096) + `{"part":1,"from":[0,0],"to":"end"}]}`,
		squall.PlanTooMany, -1, 0, "TooMany"},
}

// Each text as the old plan, as the new one, and as one that is issued.
func TestTextsThatAreNoPlans(t *testing.T) {
	router := fresh(t)
	for i, it := range noPlans {
		_, asOld := squall.OpenRouter(1, []byte(it.text), newPlan)
		_, asNew := squall.OpenRouter(1, oldPlan, []byte(it.text))
		issued := router.Issued(2, []byte(it.text))
		for _, err := range []error{asOld, asNew, issued} {
			var plan *squall.PlanError
			if !errors.As(err, &plan) || !errors.Is(err, it.fault) {
				t.Fatalf("text %d: %v", i, err)
			}
			wanted := squall.PlanError{Fault: it.fault, New: err != asOld, Entry: it.entry, Key: it.key}
			equals(t, *plan, wanted)
		}
		saysMore(t, asOld, "squall: the old text is no plan: "+it.says+": ")
		saysMore(t, asNew, "squall: the new text is no plan: "+it.says+": ")
		equals(t, squall.StatusOf(asOld), uint32(it.fault))
		equals(t, squall.StatusOf(asNew), uint32(it.fault)+20)
	}
	equals(t, len(boardOf(t, router)), 0)
}

// The old plan's fault comes before the new one's, and a number 0 before both.
func TestTheFirstFaultIsReturned(t *testing.T) {
	_, err := squall.OpenRouter(1, []byte("[]"), nil)
	failsWith(t, err, squall.PlanShape)
	_, err = squall.OpenRouter(0, []byte("[]"), nil)
	equals(t, err, squall.ErrLimit)
	router := fresh(t)
	equals(t, router.Issued(0, nil), squall.ErrLimit)
	failsWith(t, router.Issued(2, nil), squall.PlanJSON)
	succeeds(t, router.Issued(2, newPlan))
}

func TestErrorsAreToldApart(t *testing.T) {
	var plain squall.Error
	var frame squall.FrameFault
	var plan *squall.PlanError
	err := fmt.Errorf("peer 7: %w", fresh(t).Hear([]byte("ST")))
	if !errors.As(err, &frame) || errors.As(err, &plain) || errors.As(err, &plan) {
		t.Error(err)
	}
	equals(t, frame, squall.FrameMagic)
	equals(t, squall.StatusOf(err), uint32(51))
	err = fmt.Errorf("course 0: %w", fresh(t).Done(0, 0, 4))
	if !errors.As(err, &plain) || errors.As(err, &frame) || errors.As(err, &plan) {
		t.Error(err)
	}
	failsWith(t, err, squall.ErrLimit)
	equals(t, squall.StatusOf(err), uint32(2))
	equals(t, squall.StatusOf(squall.PlanGap), uint32(18))
	equals(t, squall.StatusOf(nil), uint32(0))
	equals(t, squall.StatusOf(squall.ErrBusy), uint32(0))
}

// The numbers are those of enum squall_status, and each has a text of its own.
func TestTextsOfErrors(t *testing.T) {
	for status, text := range map[uint32]string{
		1: "an allocation failed", 2: "a number or a rank is outside its limits, or the span has no keys",
		3: "nothing is open here", 4: "the stream ended with a fault before, and takes no more bytes",
		5: "a frame would have more bytes than it may have", 6: "no digest was heard that could be answered",
		7: "the router would hear of more than its limit",
		8: "the status is not known: 8", 4294967295: "the status is not known: 4294967295",
		71: "as far as the partition knows, the sub-plan is not opened",
		72: "the partition holds no key that goes out in the sub-plan opened last", 73: "no key was asked for",
		74: "the key does not go out in the sub-plan opened last", 75: "the key was given under this course before",
		76: "the key goes out, and is neither given nor held",
		77: "no known course brings these keys to this partition so", 78: "keys that come in are missing",
		79: "no key comes in, in that sub-plan", 81: "the partition gives no more in its newest course",
		91: "the course begun last is not over", 92: "the greatest number is used", 93: "no course is begun",
		94: "a partition has not reported that it has all keys of the sub-plan opened last",
		95: "all sub-plans are opened, and the last one is done",
	} {
		equals(t, squall.Error(status).Error(), "squall: "+text)
	}
	faults := []string{"Magic", "Version", "Kind", "TooLong", "Short", "Count", "Range", "Order", "Spare"}
	for i, name := range faults {
		saysMore(t, squall.FrameFault(51+i), "squall: no frame: "+name+": ")
	}
	faults = []string{"Json", "Shape", "BadPart", "BadBound", "EmptyRange", "TooMany", "Overlap", "Gap"}
	for i, name := range faults {
		saysMore(t, squall.PlanFault(11+i), "squall: no plan: "+name+": ")
	}
	equals(t, squall.FrameShort.Error(), "squall: no frame: Short: the bytes end within the frame")
	equals(t, squall.PlanTooMany.Error(), "squall: no plan: TooMany: there are more than 4096 entries")
}

// saysMore checks that the text of the error begins so, and goes on.
func saysMore(t *testing.T, err error, begin string) {
	t.Helper()
	if text := err.Error(); !strings.HasPrefix(text, begin) || len(text) == len(begin) {
		t.Errorf("%q does not begin with %q, or ends there", text, begin)
	}
}
