package squall_test

import (
	"fmt"
	"log"

	squall "sumelgos.example/squall/bindings/go"
)

// A mover works off a course, sub-plan by sub-plan. Each receiver loads its keys, and reports that it is done.
func ExampleCourse() {
	course, err := squall.OpenCourse(1, exampleOld, exampleNew)
	if err != nil {
		log.Fatal(err)
	}
	defer course.Close()
	router := exampleRouter()
	defer router.Close()
	for sub := uint32(0); sub < course.Subplans(); sub++ {
		for _, move := range course.Moves() {
			if move.Sub == sub {
				fmt.Printf("copy [%v,%v) from %d to %d\n", move.Lo, move.Hi, move.Source, move.Dest)
			}
		}
		receivers, err := course.Receivers(sub)
		if err != nil {
			log.Fatal(err)
		}
		for _, part := range receivers { // in a mover, as soon as it has loaded its keys
			if err := router.Done(course.Number(), sub, part); err != nil {
				log.Fatal(err)
			}
		}
	}
	fmt.Println(router.Route(squall.Key(2, 7)))
	// Output:
	// copy [2:0,end) from 1 to 3
	// 3 true
}

// What moves by the course of which a router has heard.
func ExampleRouter_Course() {
	router := exampleRouter()
	defer router.Close()
	if err := router.Issued(2, exampleOld); err != nil {
		log.Fatal(err)
	}
	course, err := router.Course()
	if err != nil {
		log.Fatal(err)
	}
	defer course.Close()
	fmt.Println("course", course.Number(), "has", course.Moves())
	// Output: course 2 has [{2:0 end 3 1 0}]
}

// A proxy sends a settled key to its partition. Of another key it first asks whether it is still there.
func ExampleView_Locate() {
	router := exampleRouter()
	defer router.Close()
	if err := router.Loaded(1, 0, 3, squall.Key(2, 0), squall.Key(3, 0)); err != nil {
		log.Fatal(err)
	}
	view, err := router.View()
	if err != nil {
		log.Fatal(err)
	}
	defer view.Close()
	keys := []squall.Rank{squall.Key(1, 0), squall.Key(2, 0), squall.Key(3, 0), squall.End}
	places := make([]squall.Place, len(keys))
	count := view.Locate(keys, places)
	for i, place := range places[:count] {
		switch {
		case place.Part == squall.Nowhere:
			fmt.Println(keys[i], "is no key")
		case place.IsSettled():
			fmt.Println("send", keys[i], "to", place.Part)
		default:
			fmt.Printf("ask %d whether it still has %v, which moves to %d in sub-plan %d\n", place.Part, keys[i], place.Dest, place.Sub)
		}
	}
	// Output:
	// send 1:0 to 1
	// send 2:0 to 3
	// ask 1 whether it still has 3:0, which moves to 3 in sub-plan 0
	// end is no key
}

// A partition that keeps no router sends a report to a proxy.
func ExampleFrameLoaded() {
	frame, err := squall.FrameLoaded(1, 0, 3, squall.Key(2, 0), squall.Key(3, 0))
	if err != nil {
		log.Fatal(err)
	}
	router := exampleRouter()
	defer router.Close()
	if err := router.Hear(frame); err != nil {
		log.Print(err)
	}
	fmt.Println(len(frame), "bytes:", router.Legs(0, squall.End))
	// Output: 49 bytes: [{0:0 2:0 1} {2:0 3:0 3} {3:0 end 1}]
}

// A course is announced to proxies by one frame, which holds both of its plans.
func ExampleCourse_Frame() {
	course, err := squall.OpenCourse(2, exampleNew, exampleOld)
	if err != nil {
		log.Fatal(err)
	}
	defer course.Close()
	frame, err := course.Frame()
	if err != nil {
		log.Fatal(err)
	}
	router := exampleRouter()
	defer router.Close()
	if err := router.Hear(frame); err != nil {
		log.Print(err)
	}
	fmt.Println("course", router.Number())
	// Output: course 2
}
