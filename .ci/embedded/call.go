// Answers the cases of .ci/bindings.py by bindings/go.
package main

import (
	"bytes"
	"encoding/json"
	"errors"
	"fmt"
	"log"
	"os"
	"sync"

	"wuravina/cmk"
)

// A question is a case. Text is base64 in JSON, and Options has the names of Python's, which differ from those of Go by case and _.
type question struct {
	Call    string
	Text    []byte
	Options struct {
		Bytes, Blocks, Inlines int
		Older, Strike          bool
		NoHTML                 bool `json:"no_html"`
		WebLinks               bool `json:"web_links"`
		Safe                   bool
	}
}

type answer struct {
	Output string `json:"output"`
	Number int    `json:"number"`
	Place  int    `json:"place"`
	Line   string `json:"line"`
}

var calls = map[string]func([]byte, cmk.Options) ([]byte, error){
	"html": cmk.HTML, "tree": cmk.Tree, "json": cmk.JSON, "rewrite": cmk.Rewrite, "parse": parsed, "threads": threads,
}

// parsed returns the tree of a text as JSON.
func parsed(text []byte, options cmk.Options) ([]byte, error) {
	root, err := cmk.Parse(text, options)
	if err != nil {
		return nil, err
	}
	return json.Marshal(root)
}

// threads returns the HTML that four goroutines agree on.
func threads(text []byte, options cmk.Options) ([]byte, error) {
	html, err := cmk.HTML(text, options)
	var all sync.WaitGroup
	differ := make(chan string, 800)
	for i := 0; i < 4; i++ {
		all.Add(1)
		go func() {
			defer all.Done()
			for n := 0; n < 200; n++ {
				if again, err := cmk.HTML(text, options); err != nil || !bytes.Equal(again, html) {
					differ <- fmt.Sprint(string(again), err)
				}
			}
		}()
	}
	all.Wait()
	close(differ)
	for it := range differ {
		return []byte(it), nil
	}
	return html, err
}

func answered(it question) answer {
	output, err := calls[it.Call](it.Text, cmk.Options(it.Options))
	var why *cmk.Error
	if errors.As(err, &why) {
		return answer{Number: int(why.Number), Place: why.Place, Line: err.Error()}
	} else if err != nil {
		log.Fatal(err)
	}
	return answer{Output: string(output)}
}

func main() {
	questions, answers := json.NewDecoder(os.Stdin), json.NewEncoder(os.Stdout)
	for questions.More() {
		var it question
		if err := questions.Decode(&it); err != nil {
			log.Fatal(err)
		}
		if err := answers.Encode(answered(it)); err != nil {
			log.Fatal(err)
		}
	}
}
