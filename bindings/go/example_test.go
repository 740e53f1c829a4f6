package squall_test

import (
	"bytes"
	"encoding/binary"
	"errors"
	"fmt"
	"io"
	"log"
	"sync"

	squall "sumelgos.example/squall/bindings/go"
)

var (
	exampleOld = []byte(`{"plan":[{"part":1,"from":[0,0],"to":"end"}]}`)
	exampleNew = []byte(`{"plan":[{"part":1,"from":[0,0],"to":[2,0]},{"part":3,"from":[2,0],"to":"end"}]}`)
)

// exampleRouter is a router of course 1 over two small plans: the keys from 2:0 on move from 1 to 3.
func exampleRouter() *squall.Router {
	router, err := squall.OpenRouter(1, exampleOld, exampleNew)
	if err != nil {
		log.Fatal(err)
	}
	return router
}

func Example() {
	router, err := squall.OpenRouter(1, exampleOld, exampleNew)
	if err != nil {
		log.Fatal(err)
	}
	defer router.Close()
	key := squall.Key(2, 7)
	part, _ := router.Route(key)
	fmt.Println("ask", part)
	if err := router.Loaded(1, 0, 3, squall.Key(2, 0), squall.Key(3, 0)); err != nil {
		log.Fatal(err)
	}
	part, _ = router.Route(key)
	fmt.Println("ask", part)
	// Output:
	// ask 1
	// ask 3
}

// A plan that leaves out keys, and how to tell which.
func ExamplePlanError() {
	gap := []byte(`{"plan":[{"part":1,"from":[0,0],"to":[3,5]}]}`)
	_, err := squall.OpenRouter(1, exampleOld, gap)
	fmt.Println(err)
	fmt.Println(errors.Is(err, squall.PlanGap))
	var plan *squall.PlanError
	if errors.As(err, &plan) {
		fmt.Println("the least key without a partition is", plan.Key)
	}
	// Output:
	// squall: the new text is no plan: Gap 3:5: this key is in no range
	// true
	// the least key without a partition is 3:5
}

// One proxy sends another what it knows, as messages.
func ExampleRouter_Board() {
	here, there := exampleRouter(), exampleRouter()
	defer here.Close()
	defer there.Close()
	if err := here.Done(1, 0, 3); err != nil {
		log.Fatal(err)
	}
	frames, err := here.Board()
	if err != nil {
		log.Fatal(err)
	}
	for _, frame := range frames {
		if err := there.Hear(frame); err != nil {
			log.Print(err) // a bad frame changes nothing, and the next one is heard
		}
	}
	fmt.Println(there.Route(squall.Key(2, 7)))
	// Output: 3 true
}

// A stream of frames between two proxies, such as a TCP connection.
func ExampleRouter_ReadFrom() {
	here, there := exampleRouter(), exampleRouter()
	defer here.Close()
	defer there.Close()
	from, to := io.Pipe()
	go func() {
		defer to.Close()
		for root := uint32(2); root < 5; root++ {
			if err := here.Loaded(1, 0, 3, squall.Key(root, 0), squall.Key(root+1, 0)); err != nil {
				log.Print(err)
			}
			frames, err := here.Board()
			if err != nil {
				log.Print(err)
			}
			if _, err := frames.WriteTo(to); err != nil {
				log.Print(err)
			}
		}
	}()
	n, err := there.ReadFrom(from)
	fmt.Println(n, "bytes:", err)
	fmt.Println(there.Legs(0, squall.End))
	// Output:
	// 147 bytes: <nil>
	// [{0:0 2:0 1} {2:0 5:0 3} {5:0 end 1}]
}

// A router that hears frames of strangers gets a limit on what it may tell after one.
func ExampleRouter_Limit() {
	router := exampleRouter()
	defer router.Close()
	most := squall.Counts{Cells: 1000, Spans: 1, Opened: 1000, Issues: 10}
	if err := router.Limit(most); err != nil {
		log.Fatal(err)
	}
	for root := uint32(2); root < 8; root += 2 {
		frame, err := squall.FrameLoaded(1, 0, 3, squall.Key(root, 0), squall.Key(root, 7))
		if err != nil {
			log.Fatal(err)
		}
		if err := router.Hear(frame); errors.Is(err, squall.ErrFull) {
			fmt.Println("refused:", err)
		}
	}
	fmt.Println("taken:", router.Taken())
	// Output:
	// refused: squall: the router would hear of more than its limit
	// refused: squall: the router would hear of more than its limit
	// taken: 1
}

// hearFrom hears the frames of a stream one by one, so that one router can have many streams at once. Of
// a stream alone, ReadFrom does the same.
func hearFrom(from io.Reader, router *squall.Router) error {
	for {
		head := make([]byte, 8)
		if _, err := io.ReadFull(from, head); err != nil {
			if err == io.EOF {
				return nil // the stream ended between two frames
			}
			return err
		}
		size := 8 + int64(binary.BigEndian.Uint32(head[4:]))
		if size > squall.FrameBytes {
			return router.Hear(head) // which is the fault
		}
		frame := append(head, make([]byte, size-8)...)
		if _, err := io.ReadFull(from, frame[8:]); err != nil {
			return err
		}
		if err := router.Hear(frame); err != nil {
			return err
		}
	}
}

// Streams of many peers at once.
func ExampleRouter_Hear() {
	router := exampleRouter()
	defer router.Close()
	var group sync.WaitGroup
	for root := uint32(2); root < 10; root++ {
		peer := exampleRouter()
		if err := peer.Loaded(1, 0, 3, squall.Key(root, 0), squall.Key(root+1, 0)); err != nil {
			log.Fatal(err)
		}
		frames, err := peer.Board()
		if err != nil {
			log.Fatal(err)
		}
		peer.Close()
		from, to := io.Pipe()
		group.Add(2)
		go func() {
			defer group.Done()
			defer to.Close()
			if _, err := frames.WriteTo(to); err != nil {
				log.Print(err)
			}
		}()
		go func() {
			defer group.Done()
			if err := hearFrom(from, router); err != nil {
				log.Print(err)
			}
		}()
	}
	group.Wait()
	fmt.Println(router.Legs(0, squall.End))
	// Output: [{0:0 2:0 1} {2:0 10:0 3} {10:0 end 1}]
}

// A proxy that missed reports shows another one what it knows, and gets what it lacks.
func ExampleRouter_Repair() {
	late, peer := exampleRouter(), exampleRouter()
	defer late.Close()
	defer peer.Close()
	if err := peer.Done(1, 0, 3); err != nil {
		log.Fatal(err)
	}
	digest, err := late.Digest()
	if err != nil {
		log.Fatal(err)
	}
	if err := peer.Hear(digest); err != nil {
		log.Fatal(err)
	}
	repair, err := peer.Repair()
	if err != nil {
		log.Fatal(err)
	}
	for _, frame := range repair {
		fmt.Println("hear:", late.Hear(frame))
	}
	fmt.Println(late.Route(squall.Key(2, 7)))
	// Output:
	// hear: <nil>
	// 3 true
}

// A board in a file or a buffer, from which a router learns after a restart.
func ExampleFrames_WriteTo() {
	router := exampleRouter()
	if err := router.Done(1, 0, 3); err != nil {
		log.Fatal(err)
	}
	frames, err := router.Board()
	if err != nil {
		log.Fatal(err)
	}
	router.Close()
	var file bytes.Buffer
	if _, err := frames.WriteTo(&file); err != nil {
		log.Fatal(err)
	}
	restarted := exampleRouter()
	defer restarted.Close()
	if _, err := restarted.ReadFrom(&file); err != nil {
		log.Fatal(err)
	}
	fmt.Println(restarted.Route(squall.Key(2, 7)))
	// Output: 3 true
}

// newest is the newest view of a router, which one goroutine publishes and others route by.
type newest struct {
	mu   sync.RWMutex
	view *squall.View
}

// publish makes what the router says now the newest view. When it has the lock, nobody uses the old one.
func (n *newest) publish(router *squall.Router) error {
	view, err := router.View()
	if err != nil {
		return err
	}
	n.mu.Lock()
	old := n.view
	n.view = view
	n.mu.Unlock()
	return old.Close()
}

func (n *newest) route(key squall.Rank) (squall.Part, bool) {
	n.mu.RLock()
	defer n.mu.RUnlock()
	return n.view.Route(key)
}

// One goroutine takes reports and publishes views, and others route by the newest one.
func ExampleView() {
	router := exampleRouter()
	defer router.Close()
	var views newest
	if err := views.publish(router); err != nil {
		log.Fatal(err)
	}
	var readers sync.WaitGroup
	for i := 0; i < 8; i++ {
		readers.Add(1)
		go func() {
			defer readers.Done()
			for part := squall.Part(1); part == 1; {
				part, _ = views.route(squall.Key(2, 7))
			}
		}()
	}
	if err := router.Done(1, 0, 3); err != nil {
		log.Fatal(err)
	}
	if err := views.publish(router); err != nil {
		log.Fatal(err)
	}
	readers.Wait()
	fmt.Println(views.route(squall.Key(2, 7)))
	views.view.Close()
	// Output: 3 true
}

// Many keys in one call, as those of one request.
func ExampleView_Routes() {
	router := exampleRouter()
	defer router.Close()
	view, err := router.View()
	if err != nil {
		log.Fatal(err)
	}
	defer view.Close()
	keys := []squall.Rank{squall.Key(1, 0), squall.Key(2, 0), squall.End}
	parts := make([]squall.Part, len(keys))
	count := view.Routes(keys, parts)
	for i, part := range parts[:count] {
		if part == squall.Nowhere {
			fmt.Println(keys[i], "is no key")
		} else {
			fmt.Println(keys[i], "is at", part)
		}
	}
	// Output:
	// 1:0 is at 1
	// 2:0 is at 1
	// end is no key
}

// A request for a key that has moved: the partition's reply leads to the next one.
func ExampleErrand() {
	router := exampleRouter()
	defer router.Close()
	errand, err := router.Errand(squall.Key(2, 0))
	if err != nil {
		log.Fatal(err)
	}
	defer errand.Close()
	replies := []squall.Reply{ // in a proxy, what the partition of errand.Asked() replies
		{Kind: squall.ReplyMoved, Part: 3, Number: 1},
		{Kind: squall.ReplyPending, Part: 1},
		{Kind: squall.ReplyHeld},
	}
	for _, reply := range replies {
		asked := errand.Asked()
		next, err := errand.Heed(reply)
		if err != nil {
			log.Fatal(err)
		}
		fmt.Println("asked", asked, "and then:", next)
	}
	// Output:
	// asked 1 and then: ask
	// asked 3 and then: again
	// asked 3 and then: served
}
