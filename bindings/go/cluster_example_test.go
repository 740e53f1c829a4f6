package squall_test

import (
	"errors"
	"fmt"
	"log"

	squall "sumelgos.example/squall/bindings/go"
)

// examplePartition is a partition of course 1, which has heard that sub-plan 0 is opened.
func examplePartition(id squall.Part) *squall.Partition {
	course, err := squall.OpenCourse(1, exampleOld, exampleNew)
	if err != nil {
		log.Fatal(err)
	}
	defer course.Close()
	partition, err := squall.OpenPartition(id, course)
	if err != nil {
		log.Fatal(err)
	}
	frame, err := squall.FrameOpened(1, 0)
	if err == nil {
		err = partition.Hear(frame)
	}
	if err != nil {
		log.Fatal(err)
	}
	return partition
}

// Partition 1 gives the keys from 2:0 on in chunks, and partition 3 loads them.
func ExamplePartition() {
	source, dest := examplePartition(1), examplePartition(3)
	defer source.Close()
	defer dest.Close()
	for {
		chunk, err := source.Give(1 << 63) // the most keys to send at once
		if err == squall.ErrNothingLeft {
			break
		}
		if err != nil {
			log.Fatal(err)
		}
		// Here the rows and the chunk go from source to dest.
		isNew, err := dest.Load(chunk)
		if err != nil {
			log.Fatal(err)
		}
		fmt.Printf("[%v,%v) to %d, new: %v\n", chunk.Lo, chunk.Hi, chunk.Dest, isNew)
	}
	if err := dest.Finish(0); err != nil {
		log.Fatal(err)
	}
	fmt.Println("1 holds", source.Held(), "and 3 holds", dest.Held())
	// Output:
	// [2:0,2147483650:0) to 3, new: true
	// [2147483650:0,end) to 3, new: true
	// 1 holds [{0:0 2:0}] and 3 holds [{2:0 end}]
}

// A client follows the replies of partitions while a key moves.
func ExamplePartition_Serve() {
	source, dest, router := examplePartition(1), examplePartition(3), exampleRouter()
	defer source.Close()
	defer dest.Close()
	defer router.Close()
	key := squall.Key(2, 7)
	chunk, err := source.GiveAt(key)
	if err != nil {
		log.Fatal(err)
	}
	errand, err := router.Errand(key)
	if err != nil {
		log.Fatal(err)
	}
	defer errand.Close()
	partitions := map[squall.Part]*squall.Partition{1: source, 3: dest}
	for next := squall.NextAsk; next != squall.NextServed; {
		asked := errand.Asked()
		reply, err := partitions[asked].Serve(key, errand.Number())
		if err == nil {
			next, err = errand.Heed(reply)
		}
		if err != nil {
			log.Fatal(err)
		}
		fmt.Println("ask", asked, "and then:", next)
		if next == squall.NextAgain { // meanwhile the chunk arrives
			if _, err := dest.Load(chunk); err != nil {
				log.Fatal(err)
			}
		}
	}
	// Output:
	// ask 1 and then: ask
	// ask 3 and then: again
	// ask 3 and then: served
}

// A leader begins a course, opens its sub-plan, and hears that partition 3 has all its keys.
func ExampleLeader() {
	leader, err := squall.OpenLeader(exampleOld, 0)
	if err != nil {
		log.Fatal(err)
	}
	defer leader.Close()
	if err := leader.Begin(exampleNew); err != nil {
		log.Fatal(err)
	}
	for !leader.Finished() {
		sub, err := leader.OpenNext()
		var waits *squall.NotDoneError
		switch {
		case err == nil:
			fmt.Println("opened", sub) // now send the frames of leader.Board
		case errors.As(err, &waits):
			fmt.Println("wait for", waits.Part)
			frame, err := squall.FrameDone(1, waits.Sub, waits.Part) // comes from that partition
			if err == nil {
				err = leader.Hear(frame)
			}
			if err != nil {
				log.Fatal(err)
			}
		default:
			log.Fatal(err)
		}
	}
	fmt.Println(leader.OpenNext())
	// Output:
	// opened 0
	// wait for 3
	// 0 squall: all sub-plans are opened, and the last one is done
}

// How far a course is, for an operator.
func ExampleRouter_StatusText() {
	router := exampleRouter()
	defer router.Close()
	if err := router.Opened(1, 0); err != nil {
		log.Fatal(err)
	}
	text, err := router.StatusText()
	if err != nil {
		log.Fatal(err)
	}
	fmt.Print(text)
	// Output:
	// course 1 moves 0 of 1 sub-plans 0 of 1 open 0 loaded 0 of 18446744060824649728 keys share 0/1000
	// sub-plan 0 receivers 0 of 1 done
	// move [2:0,end) 1 to 3 sub 0 not started
}

// A cache drops what lies at another partition since its last view.
func ExampleView_Changes() {
	router := exampleRouter()
	defer router.Close()
	before, err := router.View()
	if err != nil {
		log.Fatal(err)
	}
	defer before.Close()
	if err := router.Loaded(1, 0, 3, squall.Key(2, 0), squall.Key(3, 0)); err != nil {
		log.Fatal(err)
	}
	after, err := router.View()
	if err != nil {
		log.Fatal(err)
	}
	defer after.Close()
	fmt.Println(before.Changes(after, 0, squall.End))
	// Output: [{2:0 3:0}] <nil>
}
