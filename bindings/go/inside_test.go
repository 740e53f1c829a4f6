package squall

import (
	"os"
	"testing"
	"time"
)

func exampleView(t *testing.T) *View {
	t.Helper()
	plan, err := os.ReadFile("../../examples/old.json")
	if err != nil {
		t.Fatal(err)
	}
	router, err := OpenRouter(1, plan, plan)
	if err != nil {
		t.Fatal(err)
	}
	defer router.Close()
	view, err := router.View()
	if err != nil {
		t.Fatal(err)
	}
	return view
}

// Calls that read do not wait for each other, and Close waits for all of them.
func TestCloseWaitsForCallsThatRead(t *testing.T) {
	view := exampleView(t)
	for n := 0; n < 5; n++ {
		if view.read() == nil {
			t.Fatal("the view is closed")
		}
	}
	if part, ok := view.Route(Key(3, 0)); part != 2 || !ok {
		t.Error(part, ok)
	}
	closed := make(chan struct{})
	go func() {
		view.Close()
		close(closed)
	}()
	for n := 0; n < 5; n++ {
		select {
		case <-closed:
			t.Fatal("the view was closed while a call read it")
		case <-time.After(10 * time.Millisecond):
		}
		view.done()
	}
	<-closed
	if view.read() != nil {
		t.Error("a closed view is read")
	}
}

// The library takes no null pointer, even for no bytes.
func TestThePointerToNoBytes(t *testing.T) {
	for _, bytes := range [][]byte{nil, {}, make([]byte, 0, 8)} {
		if at, size := bytesOf(bytes); at == nil || size != 0 {
			t.Error(at, size)
		}
	}
}
