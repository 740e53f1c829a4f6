//go:build squall_heap

package squall

import (
	"fmt"
	"reflect"
	"testing"
)

// refuseIn makes a call with each of its allocations refused in turn. It then returns ErrNoMemory and nothing
// else, or what it returns with all memory. It says how often it returned ErrNoMemory.
func refuseIn[T any](t *testing.T, call func() (T, error)) int {
	t.Helper()
	wanted, err := call()
	succeed(t, err)
	var none T
	answered := 0
	before := allocated()
	for number, more := 1, true; more; number++ {
		refuse(number)
		got, err := call()
		more = asked() >= number
		refuse(0)
		if err == ErrNoMemory && more {
			answered++
			if !reflect.DeepEqual(got, none) {
				t.Errorf("allocation %d: %v beside an error", number, got)
			}
		} else if err != nil || !reflect.DeepEqual(got, wanted) {
			t.Errorf("allocation %d: %v, %v", number, got, err)
		}
	}
	if allocated() != before {
		t.Errorf("%d blocks are left of %d", allocated(), before)
	}
	return answered
}

// exampleCourse is the course of the example plans.
func exampleCourse(t *testing.T) *Course {
	t.Helper()
	course, err := OpenCourse(2, file(t, "old.json"), file(t, "new.json"))
	succeed(t, err)
	return course
}

func TestFramesOfReportsWithoutMemory(t *testing.T) {
	course := exampleCourse(t)
	defer course.Close()
	for name, call := range map[string]func() ([]byte, error){
		"FrameLoaded": func() ([]byte, error) { return FrameLoaded(1, 0, 3, Key(2, 0), Key(3, 0)) },
		"FrameDone":   func() ([]byte, error) { return FrameDone(1, 0, 4) },
		"FrameOpened": func() ([]byte, error) { return FrameOpened(1, 0) },
		"Frame":       course.Frame,
	} {
		t.Run(name, func(t *testing.T) {
			if refuseIn(t, call) == 0 {
				t.Error("no allocation was refused")
			}
		})
	}
}

// The library tries a second time, for less. So one refused allocation is not enough.
func TestReceiversWithoutMemory(t *testing.T) {
	course := exampleCourse(t)
	defer course.Close()
	receivers := func() ([]Part, error) { return course.Receivers(0) }
	refuseIn(t, receivers)
	refuse(-1)
	parts, err := receivers()
	refuse(0)
	if parts != nil || err != ErrNoMemory {
		t.Errorf("%v, %v", parts, err)
	}
	parts, err = receivers()
	succeed(t, err)
	if !reflect.DeepEqual(parts, []Part{3, 4}) {
		t.Error(parts)
	}
}

// Each opening that is refused leaves no block. In the end the opening succeeds.
func TestOpeningsOfCoursesWithoutMemory(t *testing.T) {
	oldPlan, newPlan := file(t, "old.json"), file(t, "new.json")
	answered := refuseIn(t, func() ([]Move, error) {
		course, err := OpenCourse(1, oldPlan, newPlan)
		if (err == nil) == (course == nil) {
			t.Errorf("%v, %v", course, err)
		}
		defer course.Close()
		return course.Moves(), err
	})
	if answered == 0 {
		t.Error("no allocation was refused")
	}
}

// What the documentation of the library says of courses and places. Each block is freed by the last of a
// router and its courses.
func TestCallsOfCoursesThatAllocateNothing(t *testing.T) {
	before, router, view := viewed(t)
	refuse(0)
	course, err := router.Course()
	succeed(t, err)
	first, err := router.FirstCourse()
	succeed(t, err)
	places := make([]Place, 1)
	sizes := []int{
		len(course.Moves()), len(course.OldPlan()), len(first.NewPlan()),
		int(course.Number()), int(course.Subplans()), view.Locate([]Rank{7}, places),
	}
	place, _ := view.Place(7)
	first.Close()
	if asked() != 0 || fmt.Sprint(sizes, place == places[0]) != "[2 4 5 1 1 1] true" {
		t.Errorf("%d allocations: %v, %v, %v", asked(), sizes, place, places)
	}
	view.Close()
	router.Close()
	if allocated() == before || len(course.Moves()) != 2 {
		t.Error("the plans of the course are freed too early")
	}
	course.Close()
	if allocated() != before {
		t.Errorf("%d blocks are left of %d", allocated(), before)
	}
}

// openedCourses opens courses of both kinds, and closes them if isClosed. It says how many. Beside them it
// tries to open some that fail.
func openedCourses(t *testing.T, isClosed bool) int {
	const count = 2000
	router := busy(t)
	defer router.Close()
	oldPlan, newPlan := file(t, "old.json"), file(t, "new.json")
	for n := 0; n < count; n++ {
		newest, err := router.Course()
		succeed(t, err)
		read, err := OpenCourse(1, oldPlan, newPlan)
		succeed(t, err)
		if _, err := OpenCourse(0, nil, nil); err != ErrLimit {
			t.Fatal(err)
		}
		if isClosed {
			newest.Close()
			read.Close()
		}
	}
	return count
}

// Rooms and blocks of courses are freed by Close, or else by finalizers.
func TestRoomsOfCourses(t *testing.T) {
	freesRooms(t, openedCourses)
}
