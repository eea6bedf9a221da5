// Measures bindings/go next to goldmark, for bench/calls.
package main

import (
	"bytes"
	"fmt"
	"log"
	"math"
	"os"
	"strconv"
	"syscall"
	"time"

	"github.com/yuin/goldmark"
	"github.com/yuin/goldmark/renderer/html"
	"wuravina/cmk"
)

func processorTime() time.Duration {
	var used syscall.Rusage
	if err := syscall.Getrusage(syscall.RUSAGE_SELF, &used); err != nil {
		log.Fatal(err)
	}
	return time.Duration(used.Utime.Nano() + used.Stime.Nano())
}

func main() {
	turns, _ := strconv.Atoi(os.Args[1])
	times, _ := strconv.Atoi(os.Args[2])
	text, err := os.ReadFile(os.Args[3])
	if err != nil {
		log.Fatal(err)
	}
	other := goldmark.New(goldmark.WithRendererOptions(html.WithXHTML(), html.WithUnsafe()))
	names := []string{"cmk", "goldmark"}
	calls := []func() error{
		func() error { _, err := cmk.HTML(text, cmk.Options{}); return err },
		func() error { return other.Convert(text, new(bytes.Buffer)) },
	}
	least := []time.Duration{math.MaxInt64, math.MaxInt64}
	for turn := 0; turn < turns; turn++ {
		for at, call := range calls {
			began := processorTime()
			for n := 0; n < times; n++ {
				if err := call(); err != nil {
					log.Fatal(err)
				}
			}
			if took := processorTime() - began; took < least[at] {
				least[at] = took
			}
		}
	}
	for at, name := range names {
		fmt.Println(name, least[at].Seconds()/float64(times))
	}
}
