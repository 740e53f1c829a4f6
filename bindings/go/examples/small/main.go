package main

import (
	"fmt"
	"log"
	"os"

	squall "sumelgos.example/squall/bindings/go"
)

func main() {
	oldPlan, err := os.ReadFile("old.json")
	if err != nil {
		log.Fatal(err)
	}
	newPlan, err := os.ReadFile("new.json")
	if err != nil {
		log.Fatal(err)
	}
	router, err := squall.OpenRouter(1, oldPlan, newPlan)
	if err != nil {
		log.Fatal(err)
	}
	defer router.Close()
	// Partition 3 has loaded the keys from 2:0 on, below 3:0, in sub-plan 0 of course 1.
	if err := router.Loaded(1, 0, 3, squall.Key(2, 0), squall.Key(3, 0)); err != nil {
		log.Fatal(err)
	}
	part, ok := router.Route(squall.Key(2, 7))
	fmt.Println(part, ok)
}
