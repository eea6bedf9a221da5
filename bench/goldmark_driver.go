// goldmark as a filter from standard input to standard output, with nothing beyond CommonMark.
package main

import (
	"bufio"
	"io"
	"os"

	"github.com/yuin/goldmark"
	"github.com/yuin/goldmark/renderer/html"
)

func main() {
	text, err := io.ReadAll(os.Stdin)
	output := bufio.NewWriter(os.Stdout)
	if err == nil {
		err = goldmark.New(goldmark.WithRendererOptions(html.WithXHTML(), html.WithUnsafe())).Convert(text, output)
	}
	if err == nil {
		err = output.Flush()
	}
	if err != nil {
		os.Exit(1)
	}
}
