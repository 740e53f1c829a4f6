package squall_test

import (
	"testing"

	squall "sumelgos.example/squall/bindings/go"
)

// heeds checks what an errand says after a reply, and whom it then asks by which number.
func heeds(t *testing.T, errand *squall.Errand, reply squall.Reply, wanted squall.Next, asked squall.Part, number uint32) {
	t.Helper()
	next, err := errand.Heed(reply)
	succeeds(t, err)
	equals(t, []any{next, errand.Asked(), errand.Number()}, []any{wanted, asked, number})
}

// errandOf is an errand for a key by a router, and is closed when the test ends.
func errandOf(t *testing.T, router *squall.Router, key squall.Rank) *squall.Errand {
	t.Helper()
	errand, err := router.Errand(key)
	succeeds(t, err)
	t.Cleanup(func() { errand.Close() })
	return errand
}

func moved(part squall.Part, number uint32) squall.Reply {
	return squall.Reply{Kind: squall.ReplyMoved, Part: part, Number: number}
}

func TestAnErrandThatFindsItsKey(t *testing.T) {
	errand := errandOf(t, fresh(t), squall.Key(2, 0))
	equals(t, errand.Asked(), squall.Part(1))
	equals(t, errand.Number(), uint32(0))
	heeds(t, errand, moved(3, 1), squall.NextAsk, 3, 1)
	heeds(t, errand, squall.Reply{Kind: squall.ReplyPending, Part: 1}, squall.NextAgain, 3, 1)
	heeds(t, errand, squall.Reply{Kind: squall.ReplyBehind}, squall.NextAgain, 3, 1)
	heeds(t, errand, squall.Reply{Kind: squall.ReplyHeld}, squall.NextServed, 3, 1)
	heeds(t, errand, squall.Reply{Kind: squall.ReplyElsewhere, Part: 1}, squall.NextServed, 3, 1)
}

func TestRepliesThatAreNone(t *testing.T) {
	errand := errandOf(t, fresh(t), squall.Key(2, 0))
	heeds(t, errand, moved(3, 1), squall.NextAsk, 3, 1)
	for _, reply := range []squall.Reply{
		{}, {Kind: 6}, {Kind: 1<<32 - 1}, {Part: 3, Number: 1},
		moved(10000, 2), moved(squall.Nowhere, 2),
		{Kind: squall.ReplyPending, Part: 10000},
		{Kind: squall.ReplyElsewhere, Part: 10000},
	} {
		next, err := errand.Heed(reply)
		equals(t, []any{next, err}, []any{squall.Next(0), squall.ErrLimit})
	}
	equals(t, []any{errand.Asked(), errand.Number()}, []any{squall.Part(3), uint32(1)})
	// What a reply does not name is not looked at.
	heeds(t, errand, squall.Reply{Kind: squall.ReplyBehind, Part: 10000, Number: 7}, squall.NextAgain, 3, 1)
}

func TestErrandsThatAreLost(t *testing.T) {
	errand := errandOf(t, fresh(t), squall.Key(2, 0))
	heeds(t, errand, moved(3, 1), squall.NextAsk, 3, 1)
	heeds(t, errand, moved(3, 1), squall.NextLost, 3, 1)
	heeds(t, errand, squall.Reply{Kind: squall.ReplyHeld}, squall.NextLost, 3, 1)
	errand = errandOf(t, fresh(t), squall.Key(2, 0))
	heeds(t, errand, squall.Reply{Kind: squall.ReplyElsewhere, Part: 3}, squall.NextLost, 1, 0)
}

func TestErrandsOfRanksThatAreNoKeys(t *testing.T) {
	router := fresh(t)
	view := viewOf(t, router)
	for _, rank := range []squall.Rank{squall.End, 1<<64 - 1} {
		_, err := router.Errand(rank)
		equals(t, err, squall.ErrLimit)
		_, err = view.Errand(rank)
		equals(t, err, squall.ErrLimit)
	}
}

// An errand needs neither the view nor the router once it has begun.
func TestErrandsByAView(t *testing.T) {
	router := fresh(t)
	succeeds(t, router.Done(1, 0, 3))
	view := viewOf(t, router)
	errand, err := view.Errand(squall.Key(2, 0))
	succeeds(t, err)
	defer errand.Close()
	view.Close()
	router.Close()
	equals(t, errand.Asked(), squall.Part(3))
	heeds(t, errand, squall.Reply{Kind: squall.ReplyHeld}, squall.NextServed, 3, 0)
}

func TestTextsOfWhatIsNext(t *testing.T) {
	for next, text := range map[squall.Next]string{
		0: "none", squall.NextServed: "served", squall.NextAsk: "ask", squall.NextAgain: "again", squall.NextLost: "lost",
	} {
		equals(t, next.String(), text)
	}
}
