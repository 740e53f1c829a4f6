package squall_test

import (
	"fmt"
	"runtime"
	"sync"
	"testing"

	squall "sumelgos.example/squall/bindings/go"
)

// large is a router whose table has some 2,000 legs.
func large(b *testing.B) *squall.Router {
	router := fresh(b)
	for second := uint32(0); second < 1000; second++ {
		succeeds(b, router.Loaded(1, 0, 4, squall.Key(6, 2*second), squall.Key(6, 2*second+1)))
	}
	return router
}

// keys are keys in mixed order, some of which lie in the many legs of a large router.
func keys(count int) []squall.Rank {
	keys := make([]squall.Rank, count)
	draw := uint32(1)
	for i := range keys {
		draw = draw*1664525 + 1013904223
		keys[i] = squall.Key(draw>>16%12, draw>>8%2000)
	}
	return keys
}

func BenchmarkRoute(b *testing.B) {
	router := large(b)
	for name, by := range map[string]interface {
		Route(squall.Rank) (squall.Part, bool)
	}{"Router": router, "View": viewOf(b, router)} {
		b.Run(name, func(b *testing.B) {
			keys := keys(1024)
			b.ReportAllocs()
			for i := 0; i < b.N; i++ {
				by.Route(keys[i%1024])
			}
		})
	}
}

// batches runs a call on batches of keys of several sizes, with as many places for answers.
func batches[Answer any](b *testing.B, call func(keys []squall.Rank, answers []Answer) int) {
	for _, count := range []int{1, 16, 1000} {
		b.Run(fmt.Sprint(count), func(b *testing.B) {
			keys, answers := keys(count), make([]Answer, count)
			b.ReportAllocs()
			for i := 0; i < b.N; i++ {
				call(keys, answers)
			}
		})
	}
}

func BenchmarkRoutes(b *testing.B) {
	batches(b, viewOf(b, large(b)).Routes)
}

func BenchmarkPlace(b *testing.B) {
	view := viewOf(b, large(b))
	keys := keys(1024)
	b.ReportAllocs()
	for i := 0; i < b.N; i++ {
		view.Place(keys[i%1024])
	}
}

func BenchmarkLocate(b *testing.B) {
	batches(b, viewOf(b, large(b)).Locate)
}

// eight runs routes in eight goroutines at once.
func eight(b *testing.B, route func(key squall.Rank)) {
	procs := runtime.GOMAXPROCS(0)
	b.SetParallelism((8 + procs - 1) / procs)
	keys := keys(1024)
	b.RunParallel(func(turn *testing.PB) {
		for i := 0; turn.Next(); i++ {
			route(keys[i%1024])
		}
	})
}

// Routes from eight goroutines: by a router, whose lock they wait for, and by one view. Then by a view under
// a lock for many readers, as in ExampleView, and by a view behind one more lock.
func BenchmarkEightGoroutines(b *testing.B) {
	router := large(b)
	view := viewOf(b, router)
	var shared sync.RWMutex
	var alone sync.Mutex
	for _, it := range []struct {
		name  string
		route func(key squall.Rank)
	}{
		{"Router", func(key squall.Rank) { router.Route(key) }},
		{"View", func(key squall.Rank) { view.Route(key) }},
		{"ViewUnderRWMutex", func(key squall.Rank) { shared.RLock(); view.Route(key); shared.RUnlock() }},
		{"ViewUnderMutex", func(key squall.Rank) { alone.Lock(); view.Route(key); alone.Unlock() }},
	} {
		b.Run(it.name, func(b *testing.B) { eight(b, it.route) })
	}
}

func BenchmarkLoaded(b *testing.B) {
	router := large(b)
	for i := 0; i < b.N; i++ {
		second := uint32(i) % 1000
		succeeds(b, router.Loaded(1, 0, 4, squall.Key(6, 2*second), squall.Key(6, 2*second+1)))
	}
}

func BenchmarkHear(b *testing.B) {
	router := large(b)
	frame := unhex(loadFrame)
	b.ReportAllocs()
	for i := 0; i < b.N; i++ {
		succeeds(b, router.Hear(frame))
	}
}

func BenchmarkFrameLoaded(b *testing.B) {
	b.ReportAllocs()
	for i := 0; i < b.N; i++ {
		_, err := squall.FrameLoaded(1, 0, 4, squall.Key(6, 0), squall.Key(6, 1))
		succeeds(b, err)
	}
}

// A course is opened from a router and from texts, and says which 1,000 spans move.
func BenchmarkCourse(b *testing.B) {
	router := fresh(b)
	large := courseOf(b, 1, striped(1000, 0), striped(1000, 5000))
	closed := func(course *squall.Course, err error) {
		succeeds(b, err)
		course.Close()
	}
	for _, it := range []struct {
		name string
		call func()
	}{
		{"OfRouter", func() { closed(router.Course()) }},
		{"Open", func() { closed(squall.OpenCourse(1, oldPlan, newPlan)) }},
		{"Moves", func() { large.Moves() }},
	} {
		b.Run(it.name, func(b *testing.B) {
			for i := 0; i < b.N; i++ {
				it.call()
			}
		})
	}
}

// rowsOf are the bytes of three rows: of two numbers, with a hash tag, and of a hash of all.
var rowsOf = map[string]string{"Numbers": "2:7:cart", "Tag": "cart{1001}:7", "Hash": "user:1001:cart"}

func BenchmarkKeyOf(b *testing.B) {
	for name, row := range rowsOf {
		b.Run(name, func(b *testing.B) {
			bytes := []byte(row)
			b.ReportAllocs()
			for i := 0; i < b.N; i++ {
				squall.KeyOf(bytes)
			}
		})
	}
}

// each runs calls that return an error or none.
func each(b *testing.B, calls map[string]func(i int) error) {
	for name, call := range calls {
		b.Run(name, func(b *testing.B) {
			b.ReportAllocs()
			for i := 0; i < b.N; i++ {
				succeeds(b, call(i))
			}
		})
	}
}

// The calls of the partitions of the example plans. A partition gives one key after another, or the next one is
// loaded too.
func BenchmarkPartition(b *testing.B) {
	course := courseOf(b, 1, oldPlan, newPlan)
	source, dest, whole := opened(b, 1), opened(b, 3), opened(b, 3)
	_, err := whole.Load(chunkOf(two, three))
	succeeds(b, err)
	frame := unhex(loadFrame)
	each(b, map[string]func(i int) error{
		"Open": func(int) error {
			partition, err := squall.OpenPartition(1, course)
			partition.Close()
			return err
		},
		"Serve": func(int) error { _, err := source.Serve(7, 0); return err },
		"Give":  func(int) error { _, err := source.Give(1); return err },
		"GiveAndLoad": func(int) error {
			chunk, err := source.Give(1)
			if err == nil {
				_, err = dest.Load(chunk)
			}
			return err
		},
		"Finish": func(int) error { return whole.Finish(0) },
		"Held":   func(int) error { whole.Held(); return nil },
		"Hear":   func(int) error { return source.Hear(frame) },
		"Board":  func(int) error { _, err := whole.Board(); return err },
	})
}

func BenchmarkLeader(b *testing.B) {
	course := courseOf(b, 1, oldPlan, newPlan)
	leader := leaderOf(b, 0)
	succeeds(b, leader.Begin(newPlan))
	frame, err := squall.FrameDone(1, 0, 3)
	succeeds(b, err)
	each(b, map[string]func(i int) error{
		"Open": func(int) error {
			leader, err := squall.OpenLeader(oldPlan, 0)
			leader.Close()
			return err
		},
		"OpenAndBegin": func(int) error {
			leader, err := squall.OpenLeader(oldPlan, 0)
			if err == nil {
				err = leader.Begin(newPlan)
			}
			leader.Close()
			return err
		},
		"Resume": func(int) error {
			leader, err := squall.ResumeLeader(course)
			leader.Close()
			return err
		},
		"Hear":     func(int) error { return leader.Hear(frame) },
		"Finished": func(int) error { leader.Finished(); return nil },
		"Course": func(int) error {
			course, err := leader.Course()
			course.Close()
			return err
		},
		"Board": func(int) error { _, err := leader.Board(); return err },
	})
}

// What a router of some 1,000 loaded spans says of itself, and what changes when each of them is loaded.
func BenchmarkTold(b *testing.B) {
	router := large(b)
	before, after := viewOf(b, fresh(b)), viewOf(b, router)
	same, err := after.Clone()
	succeeds(b, err)
	defer same.Close()
	each(b, map[string]func(i int) error{
		"Clashed":    func(int) error { _, err := router.Clashed(); return err },
		"Counts":     func(int) error { _, err := router.Counts(); return err },
		"StatusText": func(int) error { _, err := router.StatusText(); return err },
		"Picture":    func(int) error { _, err := router.Picture(); return err },
		"Changes":    func(int) error { _, err := before.Changes(after, 0, squall.End); return err },
		"NoChange":   func(int) error { _, err := after.Changes(same, 0, squall.End); return err },
	})
}

func BenchmarkView(b *testing.B) {
	router := large(b)
	for i := 0; i < b.N; i++ {
		view, err := router.View()
		succeeds(b, err)
		view.Close()
	}
}

func BenchmarkErrand(b *testing.B) {
	view := viewOf(b, large(b))
	held := squall.Reply{Kind: squall.ReplyHeld}
	b.ReportAllocs()
	for i := 0; i < b.N; i++ {
		errand, err := view.Errand(squall.Key(2, 0))
		succeeds(b, err)
		errand.Asked()
		if _, err := errand.Heed(held); err != nil {
			b.Fatal(err)
		}
		errand.Close()
	}
}
