// Command routes measures routes from Go: one a call, and 1,000 a call. The words are how many legs there are and the
// file of a frame. It prints `NAME: VALUE UNIT` a line.
package main

import (
	"fmt"
	"log"
	"os"
	"time"

	squall "sumelgos.example/squall/bindings/go"
)

const (
	reach  = 1 << 62
	count  = 1000
	rounds = 1000
)

// plan is the text of a plan by which one partition has all keys.
func plan(part int) []byte {
	return []byte(fmt.Sprintf(`{"plan":[{"part":%d,"from":[0,0],"to":"end"}]}`, part))
}

// keys are drawn by chance, as in the other languages.
func keys() []squall.Rank {
	keys := make([]squall.Rank, count)
	state := uint64(1)
	for i := range keys {
		keys[i] = squall.Rank(state & (reach - 1))
		state = state*6364136223846793005 + 1442695040888963407
	}
	return keys
}

// least is the least time of a call in all rounds, in nanoseconds for each key.
func least(call func()) float64 {
	least := time.Hour
	for i := 0; i < rounds; i++ {
		start := time.Now()
		call()
		if took := time.Since(start); took < least {
			least = took
		}
	}
	return float64(least.Nanoseconds()) / count
}

func run(legs, file string) error {
	frame, err := os.ReadFile(file)
	if err != nil {
		return err
	}
	router, err := squall.OpenRouter(1, plan(1), plan(2))
	if err != nil {
		return err
	}
	defer router.Close()
	if err := router.Hear(frame); err != nil {
		return err
	}
	view, err := router.View()
	if err != nil {
		return err
	}
	defer view.Close()
	keys, parts := keys(), make([]squall.Part, count)
	one := least(func() {
		for _, key := range keys {
			view.Route(key)
		}
	})
	many := least(func() { view.Routes(keys, parts) })
	for i, key := range keys {
		if part, ok := view.Route(key); !ok || part != parts[i] {
			return fmt.Errorf("a batch answers %v otherwise than a call", key)
		}
	}
	fmt.Printf("route, %s legs: %.0f ns\n", legs, one)
	fmt.Printf("1,000 routes a call, %s legs, each: %.1f ns\n", legs, many)
	return nil
}

func main() {
	if len(os.Args) != 3 {
		log.Fatal("usage: routes LEGS FRAME")
	}
	if err := run(os.Args[1], os.Args[2]); err != nil {
		log.Fatal(err)
	}
}
