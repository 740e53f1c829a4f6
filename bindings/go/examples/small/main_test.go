package main

import (
	"log"
	"os"
	"strings"
	"testing"
)

func Example() {
	here, err := os.Getwd()
	if err != nil {
		log.Fatal(err)
	}
	if err := os.Chdir("../../../../examples"); err != nil {
		log.Fatal(err)
	}
	main()
	if err := os.Chdir(here); err != nil {
		log.Fatal(err)
	}
	// Output: 3 true
}

// The page for authors of proxies shows this program.
func TestThePageShowsThisProgram(t *testing.T) {
	page, err := os.ReadFile("../../README.md")
	if err != nil {
		t.Fatal(err)
	}
	program, err := os.ReadFile("main.go")
	if err != nil {
		t.Fatal(err)
	}
	var shown strings.Builder
	for _, line := range strings.SplitAfter(string(program), "\n") {
		if line != "\n" && line != "" {
			line = "    " + strings.ReplaceAll(line, "\t", "    ")
		}
		shown.WriteString(line)
	}
	if !strings.Contains(string(page), "\n\n"+shown.String()+"\n") {
		t.Error("README.md shows another program")
	}
}
