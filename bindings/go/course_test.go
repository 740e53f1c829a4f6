package squall_test

import (
	"fmt"
	"runtime"
	"strings"
	"sync/atomic"
	"testing"

	squall "sumelgos.example/squall/bindings/go"
)

// courseOf is a course of two texts, and is closed when the test ends.
func courseOf(t testing.TB, number uint32, oldPlan, newPlan []byte) *squall.Course {
	t.Helper()
	course, err := squall.OpenCourse(number, oldPlan, newPlan)
	succeeds(t, err)
	t.Cleanup(func() { course.Close() })
	return course
}

func receives(t *testing.T, course *squall.Course, sub uint32, wanted ...squall.Part) {
	t.Helper()
	parts, err := course.Receivers(sub)
	succeeds(t, err)
	if len(parts) != 0 || len(wanted) != 0 {
		equals(t, parts, wanted)
	}
}

// The moves of the example plans, and those of the way back.
var (
	exampleMoves = []squall.Move{
		{Lo: squall.Key(2, 0), Hi: squall.Key(3, 0), Source: 1, Dest: 3},
		{Lo: squall.Key(6, 0), Hi: squall.Key(9, 0), Source: 3, Dest: 4},
	}
	movesBack = []squall.Move{
		{Lo: squall.Key(2, 0), Hi: squall.Key(3, 0), Source: 3, Dest: 1},
		{Lo: squall.Key(6, 0), Hi: squall.Key(9, 0), Source: 4, Dest: 3},
	}
)

func TestTheCourseOfTheExamples(t *testing.T) {
	course := courseOf(t, 7, oldPlan, newPlan)
	equals(t, []uint32{course.Number(), course.Subplans()}, []uint32{7, 1})
	equals(t, course.Moves(), exampleMoves)
	receives(t, course, 0, 3, 4)
	receives(t, course, 1)
	receives(t, course, 10000)
	receives(t, course, 1<<32-1)
	equals(t, course.OldPlan(), fresh(t).Legs(0, squall.End))
	equals(t, course.NewPlan(), []squall.Leg{
		{Lo: 0, Hi: squall.Key(2, 0), Part: 1},
		{Lo: squall.Key(2, 0), Hi: squall.Key(3, 0), Part: 3},
		{Lo: squall.Key(3, 0), Hi: squall.Key(5, 0), Part: 2},
		{Lo: squall.Key(5, 0), Hi: squall.Key(6, 0), Part: 3},
		{Lo: squall.Key(6, 0), Hi: squall.End, Part: 4},
	})
}

// The keys of partition 1 go to 2 and to 3, in one sub-plan each, and those of 2 go to 1.
func TestACourseOfTwoSubplans(t *testing.T) {
	course := courseOf(t, 1<<32-1,
		[]byte(`{"plan":[{"part":1,"from":[0,0],"to":[4,0]},{"part":2,"from":[4,0],"to":"end"}]}`),
		[]byte(`{"plan":[{"part":3,"from":[0,0],"to":[1,5]},{"part":2,"from":[1,5],"to":[4,0]},
			{"part":1,"from":[4,0],"to":"end"}]}`))
	equals(t, []uint32{course.Number(), course.Subplans()}, []uint32{1<<32 - 1, 2})
	equals(t, course.Moves(), []squall.Move{
		{Lo: 0, Hi: squall.Key(1, 5), Source: 1, Dest: 3, Sub: 1},
		{Lo: squall.Key(1, 5), Hi: squall.Key(4, 0), Source: 1, Dest: 2, Sub: 0},
		{Lo: squall.Key(4, 0), Hi: squall.End, Source: 2, Dest: 1, Sub: 0},
	})
	receives(t, course, 0, 1, 2)
	receives(t, course, 1, 3)
	receives(t, course, 2)
}

func TestACourseInWhichNothingMoves(t *testing.T) {
	course := courseOf(t, 1, oldPlan, oldPlan)
	equals(t, []uint32{course.Number(), course.Subplans()}, []uint32{1, 0})
	equals(t, len(course.Moves()), 0)
	receives(t, course, 0)
	equals(t, course.OldPlan(), course.NewPlan())
}

// striped is the text of a plan that gives the keys of each root below `count` to a partition of their own,
// from `first` on. The last one has all further keys too.
func striped(count, first int) []byte {
	ranges := make([]string, count)
	for root := range ranges {
		to := fmt.Sprintf("[%d,0]", root+1)
		if root == count-1 {
			to = `"end"`
		}
		ranges[root] = fmt.Sprintf(`{"part":%d,"from":[%d,0],"to":%s}`, first+root, root, to)
	}
	return []byte(`{"plan":[` + strings.Join(ranges, ",") + `]}`)
}

// More than one call of the library gives, a whole number of such calls among them, up to the largest plan.
func TestCoursesOfAnyNumberOfMoves(t *testing.T) {
	for _, count := range []int{1, 2, 63, 64, 65, 128, 200, 1024, 4096} {
		course := courseOf(t, 1, striped(count, 0), striped(count, 5000))
		var moves []squall.Move
		var sources, dests []squall.Leg
		var receivers []squall.Part
		for root := 0; root < count; root++ {
			lo, hi := squall.Key(uint32(root), 0), squall.Key(uint32(root+1), 0)
			if root == count-1 {
				hi = squall.End
			}
			source, dest := squall.Part(root), squall.Part(5000+root)
			moves = append(moves, squall.Move{Lo: lo, Hi: hi, Source: source, Dest: dest})
			sources = append(sources, squall.Leg{Lo: lo, Hi: hi, Part: source})
			dests = append(dests, squall.Leg{Lo: lo, Hi: hi, Part: dest})
			receivers = append(receivers, dest)
		}
		equals(t, course.Moves(), moves)
		equals(t, course.OldPlan(), sources)
		equals(t, course.NewPlan(), dests)
		receives(t, course, 0, receivers...)
	}
}

// Courses are refused with the errors of routers: the old text before the new one, and a number 0 before both.
func TestCoursesThatAreNone(t *testing.T) {
	for _, it := range noPlans {
		text := []byte(it.text)
		for _, texts := range [][2][]byte{{text, newPlan}, {oldPlan, text}, {text, text}} {
			_, wanted := squall.OpenRouter(1, texts[0], texts[1])
			course, err := squall.OpenCourse(1, texts[0], texts[1])
			equals(t, []any{course, err}, []any{(*squall.Course)(nil), wanted})
		}
		course, err := squall.OpenCourse(0, text, newPlan)
		equals(t, []any{course, err}, []any{(*squall.Course)(nil), squall.ErrLimit})
	}
	_, err := squall.OpenCourse(1, oldPlan, []byte(`{"plan":[{"part":1,"from":[0,0],"to":[3,0]}]}`))
	equals(t, err, error(&squall.PlanError{Fault: squall.PlanGap, New: true, Entry: -1, Key: squall.Key(3, 0)}))
	_, err = squall.OpenCourse(1, []byte(`{"plan":[{"part":1,"from":[0,0],"to":"end"},{"part":-1}]}`), newPlan)
	equals(t, err, error(&squall.PlanError{Fault: squall.PlanShape, Entry: 1}))
}

func TestCoursesOfARouter(t *testing.T) {
	router := fresh(t)
	before, err := router.Course()
	succeeds(t, err)
	succeeds(t, router.Issued(5, oldPlan))
	first, err := router.FirstCourse()
	succeeds(t, err)
	newest, err := router.Course()
	succeeds(t, err)
	router.Close()
	equals(t, []uint32{before.Number(), first.Number(), newest.Number()}, []uint32{1, 1, 5})
	equals(t, newest.Moves(), movesBack)
	newest.Close()
	equals(t, first.Moves(), exampleMoves)
	first.Close()
	equals(t, before.NewPlan(), courseOf(t, 1, oldPlan, newPlan).NewPlan())
	before.Close()
}

// Two issues of one number are no course. Then routes are by the one before.
func TestTheCourseBeforeAClash(t *testing.T) {
	router := fresh(t)
	succeeds(t, router.Issued(5, oldPlan))
	succeeds(t, router.Issued(5, newPlan))
	led(t, router, 1, exampleMoves)
}

// A router that knows one plan alone learns a course from the frames of another router, and can say what it is.
func TestACourseFromAFrame(t *testing.T) {
	mover, err := squall.OpenRouter(1, oldPlan, oldPlan)
	succeeds(t, err)
	defer mover.Close()
	proxy, err := squall.OpenRouter(1, oldPlan, oldPlan)
	succeeds(t, err)
	defer proxy.Close()
	succeeds(t, mover.Issued(2, newPlan))
	for _, frame := range boardOf(t, mover) {
		succeeds(t, proxy.Hear(frame))
	}
	led(t, proxy, 2, exampleMoves)
}

func TestPlansAsTexts(t *testing.T) {
	course := courseOf(t, 7, oldPlan, newPlan)
	old, err := course.OldText()
	succeeds(t, err)
	equals(t, strings.HasPrefix(old, `{"plan":[{"from":[0,0],"part":1,"to":[3,0]},`), true)
	text, err := course.NewText()
	succeeds(t, err)
	equals(t, strings.HasSuffix(text, `{"from":[6,0],"part":4,"to":"end"}]}`), true)
	again := courseOf(t, 7, []byte(old), []byte(text))
	equals(t, again.Moves(), exampleMoves)
	succeeds(t, course.Close())
	_, err = course.OldText()
	equals(t, err, squall.ErrClosed)
}

func TestWhereACourseLeavesTheKeys(t *testing.T) {
	course := courseOf(t, 1, oldPlan, newPlan)
	loaded := []squall.Span{
		{Lo: squall.Key(7, 0), Hi: squall.End},
		{Lo: squall.Key(2, 0), Hi: squall.Key(2, 5)},
		{Lo: squall.Key(7, 0), Hi: squall.Key(8, 0)},
	}
	left, err := course.Left(loaded)
	succeeds(t, err)
	back := courseOf(t, 2, []byte(left), oldPlan)
	equals(t, back.Moves(), []squall.Move{
		{Lo: squall.Key(2, 0), Hi: squall.Key(2, 5), Source: 3, Dest: 1},
		{Lo: squall.Key(7, 0), Hi: squall.Key(9, 0), Source: 4, Dest: 3},
	})
	old, err := course.OldText()
	succeeds(t, err)
	left, err = course.Left(nil)
	succeeds(t, err)
	equals(t, left, old)
	// A span without a key, and so many ranges as no plan has.
	_, err = course.Left([]squall.Span{{Lo: squall.Key(2, 0), Hi: squall.Key(2, 0)}})
	equals(t, err, squall.ErrLimit)
	odd := make([]squall.Span, 2048)
	for i := range odd {
		odd[i] = squall.Span{Lo: squall.Key(2, uint32(2*i)), Hi: squall.Key(2, uint32(2*i+1))}
	}
	_, err = course.Left(odd)
	equals(t, err, squall.ErrLimit)
	succeeds(t, course.Close())
	_, err = course.Left(loaded)
	equals(t, err, squall.ErrClosed)
}

func TestACourseThatIsClosed(t *testing.T) {
	closed := courseOf(t, 1, oldPlan, newPlan)
	receives(t, closed, 0, 3, 4)
	succeeds(t, closed.Close())
	succeeds(t, closed.Close())
	for _, course := range []*squall.Course{closed, nil, new(squall.Course)} {
		equals(t, []uint32{course.Number(), course.Subplans()}, []uint32{0, 0})
		equals(t, course.Moves(), []squall.Move(nil))
		equals(t, course.OldPlan(), []squall.Leg(nil))
		equals(t, course.NewPlan(), []squall.Leg(nil))
		parts, err := course.Receivers(0)
		equals(t, []any{parts, err}, []any{[]squall.Part(nil), squall.ErrClosed})
		frame, err := course.Frame()
		equals(t, []any{frame, err}, []any{[]byte(nil), squall.ErrClosed})
		succeeds(t, course.Close())
	}
}

func TestCoursesOfARouterThatIsClosed(t *testing.T) {
	closed := fresh(t)
	succeeds(t, closed.Close())
	for _, router := range []*squall.Router{closed, nil, new(squall.Router)} {
		for _, open := range []func() (*squall.Course, error){router.Course, router.FirstCourse} {
			course, err := open()
			equals(t, []any{course, err}, []any{(*squall.Course)(nil), squall.ErrClosed})
		}
	}
}

// rightOrClosedCourse makes each call of a course, and checks that it is right, or that of a closed course.
func rightOrClosedCourse(t *testing.T, course *squall.Course) {
	if number := course.Number(); number != 1 && number != 0 {
		t.Errorf("the number is %d", number)
	}
	if count := course.Subplans(); count != 1 && count != 0 {
		t.Errorf("there are %d sub-plans", count)
	}
	sizes := []int{len(course.Moves()), len(course.OldPlan()), len(course.NewPlan())}
	for _, size := range sizes {
		if size != 200 && size != 0 {
			t.Errorf("there are %v moves and ranges", sizes)
		}
	}
	if parts, err := course.Receivers(0); err == nil && len(parts) != 200 || err != nil && err != squall.ErrClosed {
		t.Errorf("there are %d receivers: %v", len(parts), err)
	}
	if frame, err := course.Frame(); err == nil && len(frame) < 2*200*12 || err != nil && err != squall.ErrClosed {
		t.Errorf("the frame has %d bytes: %v", len(frame), err)
	}
}

// A course that is closed while others use it: each answer is whole, or says that it is closed.
func TestACourseThatIsClosedAmongOthers(t *testing.T) {
	oldText, newText := striped(200, 0), striped(200, 500)
	for round := 0; round < 20; round++ {
		course := courseOf(t, 1, oldText, newText)
		together(readers, func(i int) {
			for n := 0; n < 10; n++ {
				rightOrClosedCourse(t, course)
				if i == 0 && n == round/2 {
					course.Close()
				}
			}
		})
		equals(t, course.Number(), uint32(0))
	}
}

// newestAfter is the number of the router's newest course, which is checked: no number is less than the one
// before, and courses of odd numbers lead to the new plan, whose first range ends at 2:0.
func newestAfter(t *testing.T, router *squall.Router, known uint32) uint32 {
	course, err := router.Course()
	number := course.Number()
	if err != nil || number < known {
		t.Errorf("course %d after %d: %v", number, known, err)
		return known
	}
	defer course.Close()
	if first := course.NewPlan()[0]; first.Hi != squall.Key(3-number%2, 0) {
		t.Errorf("course %d leads to %v", number, first)
	}
	return number
}

// One goroutine issues courses that lead there and back, while others open the newest one.
func TestCoursesOfManyGoroutines(t *testing.T) {
	const last = 40
	router := fresh(t)
	var issued atomic.Uint32
	together(readers, func(i int) {
		if i == 0 {
			for number := uint32(2); number <= last; number++ {
				if err := router.Issued(number, [][]byte{oldPlan, newPlan}[number%2]); err != nil {
					t.Error(err)
				}
				issued.Store(number)
			}
			return
		}
		for known := uint32(0); issued.Load() < last; {
			known = newestAfter(t, router, known)
		}
		equals(t, newestAfter(t, router, 0), uint32(last))
	})
}

// Courses that are dropped without Close are closed by finalizers while others are used.
func TestCoursesThatAreNeverClosed(t *testing.T) {
	router := fresh(t)
	for round := 0; round < 20; round++ {
		for n := 0; n < 20; n++ {
			course, err := router.Course()
			succeeds(t, err)
			other, err := squall.OpenCourse(1, oldPlan, newPlan)
			succeeds(t, err)
			equals(t, course.Moves(), other.Moves())
		}
		runtime.GC()
	}
}
