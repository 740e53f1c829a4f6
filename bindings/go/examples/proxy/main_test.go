package main

import (
	"os"
	"strings"
	"testing"

	squall "sumelgos.example/squall/bindings/go"
)

const (
	plans = "../../../../examples/"
	lines = "../../../c/examples/"
)

// The proxy answers the lines of the one in C as that does.
func TestTheLinesOfTheProxyInC(t *testing.T) {
	from, err := os.Open(lines + "proxy.in")
	if err != nil {
		t.Fatal(err)
	}
	defer from.Close()
	wanted, err := os.ReadFile(lines + "proxy.out")
	if err != nil {
		t.Fatal(err)
	}
	var to strings.Builder
	if err := run(plans+"old.json", plans+"new.json", from, &to); err != nil {
		t.Fatal(err)
	}
	if to.String() != string(wanted) {
		t.Errorf("it answers\n%s", to.String())
	}
}

func TestLinesThatAreNone(t *testing.T) {
	from := strings.NewReader("key\nkey 1\nkey 4294967296:0\nframe 5\nframe xy\n\nroute 2:0\nkey 2:0")
	wanted := "no key\nno key\nno key\nno hex digits\nno hex digits\nno such line\nno such line\n1\n"
	var to strings.Builder
	if err := run(plans+"old.json", plans+"new.json", from, &to); err != nil {
		t.Fatal(err)
	}
	if to.String() != wanted {
		t.Errorf("it answers\n%s", to.String())
	}
}

func TestFilesThatAreNoPlans(t *testing.T) {
	none := strings.NewReader("")
	err := run(lines+"proxy.in", plans+"new.json", none, nil)
	if squall.StatusOf(err) != uint32(squall.PlanJSON) {
		t.Error(err)
	}
	if err := run(plans+"old.json", "missing.json", none, nil); !os.IsNotExist(err) {
		t.Error(err)
	}
}
