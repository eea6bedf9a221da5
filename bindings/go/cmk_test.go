package cmk_test

import (
	"bytes"
	"errors"
	"fmt"
	"reflect"
	"runtime"
	"strings"
	"sync"
	"testing"

	"wuravina/cmk"
)

func ExampleHTML() {
	html, err := cmk.HTML([]byte("a & *b* ~~c~~ <b>"), cmk.Options{Strike: true, Safe: true})
	fmt.Print(string(html), err)
	// Output:
	// <p>a &amp; <em>b</em> <del>c</del> &lt;b&gt;</p>
	// <nil>
}

func ExampleError() {
	_, err := cmk.HTML([]byte("ab\xff"), cmk.Options{})
	var why *cmk.Error
	if errors.As(err, &why) {
		fmt.Println(why, why.Number == cmk.ErrNotUTF8, why.Place, errors.Is(err, cmk.ErrNotUTF8), errors.Is(err, cmk.ErrTooLong))
	}
	// Output: cmk: F1 not UTF-8 at byte 2 true 2 true false
}

func ExampleNode_Walk() {
	root, err := cmk.Parse([]byte("[a](/b) *![c](/d)*\n"), cmk.Options{})
	if err != nil {
		panic(err)
	}
	root.Walk(func(n *cmk.Node) {
		if n.Type == "link" || n.Type == "image" {
			fmt.Println(n.URL)
		}
	})
	// Output:
	// /b
	// /d
}

func TestOutputs(t *testing.T) {
	for _, it := range []struct {
		call       func([]byte, cmk.Options) ([]byte, error)
		text, want string
		options    cmk.Options
	}{
		{cmk.HTML, "", "", cmk.Options{}},
		{cmk.HTML, "a\x00b", "<p>a\ufffdb</p>\n", cmk.Options{}},
		{cmk.HTML, "<b>a</b> [b](javascript:c)", "<p>&lt;b&gt;a&lt;/b&gt; [b](javascript:c)</p>\n", cmk.Options{Safe: true}},
		{cmk.HTML, "<b>a</b> [b](javascript:c)", "<p><b>a</b> [b](javascript:c)</p>\n", cmk.Options{WebLinks: true}},
		{cmk.HTML, "<b>", "<p>&lt;b&gt;</p>\n", cmk.Options{NoHTML: true}},
		{cmk.HTML, "a\n<source>", "<p>a</p>\n<source>\n", cmk.Options{Older: true}},
		{cmk.Tree, "# a", "heading 1\n  text \"a\"\nowner 1 leaf 1\n", cmk.Options{}},
		{cmk.JSON, "---", `{"type":"root","data":{"lines":[1,1]},"children":[{"type":"thematicBreak","data":{"lines":[1,1]}}]}`, cmk.Options{}},
		{cmk.Rewrite, "a\n===\n", "# a\n", cmk.Options{}},
	} {
		if got, err := it.call([]byte(it.text), it.options); err != nil || string(got) != it.want {
			t.Errorf("%q with %+v: %q, %v", it.text, it.options, got, err)
		}
	}
}

func TestErrors(t *testing.T) {
	for _, it := range []struct {
		call    func([]byte, cmk.Options) ([]byte, error)
		text    string
		options cmk.Options
		want    cmk.Error
		line    string
	}{
		{cmk.HTML, "abcdef", cmk.Options{Bytes: 3}, cmk.Error{cmk.ErrTooLong, 3}, "cmk: F2 input too long at byte 3"},
		{cmk.HTML, "> > a", cmk.Options{Blocks: 1}, cmk.Error{cmk.ErrBlocksTooDeep, 1}, "cmk: F3 blocks too deep on line 1"},
		{cmk.Tree, "***a***", cmk.Options{Inlines: 1}, cmk.Error{cmk.ErrInlinesTooDeep, 1}, "cmk: F4 inlines too deep in leaf 1"},
		{cmk.Rewrite, "***a***", cmk.Options{}, cmk.Error{cmk.ErrCannotSpell, 5}, "cmk: F8 cannot be spelled: emphasis in emphasis"},
		{cmk.HTML, "a", cmk.Options{Bytes: -1}, cmk.Error{cmk.ErrOutOfRange, 0}, "cmk: a number is out of its range"},
		{cmk.JSON, "a", cmk.Options{Blocks: 501}, cmk.Error{cmk.ErrOutOfRange, 0}, "cmk: a number is out of its range"},
	} {
		got, err := it.call([]byte(it.text), it.options)
		var why *cmk.Error
		if got != nil || !errors.As(err, &why) || *why != it.want || !errors.Is(err, it.want.Number) || err.Error() != it.line {
			t.Errorf("%q with %+v: %q, %v", it.text, it.options, got, err)
		}
	}
	if line := (&cmk.Error{Number: 99}).Error(); line != "cmk: answer 99 at 0" {
		t.Error(line)
	}
	if _, err := cmk.Parse([]byte("\xff"), cmk.Options{}); !errors.Is(err, cmk.ErrNotUTF8) {
		t.Error(err)
	}
}

func TestDepth(t *testing.T) {
	inlines := map[string]int{
		strings.Repeat("*", 1000) + "a" + strings.Repeat("*", 1000):   1503,
		strings.Repeat("![", 500) + "a" + strings.Repeat("](b)", 500): 1003,
	}
	for text, wanted := range inlines {
		root, err := cmk.Parse([]byte(strings.Repeat("- ", 500)+text), cmk.Options{Blocks: 500, Inlines: 500})
		if err != nil {
			t.Fatal(err)
		}
		count := 0
		root.Walk(func(*cmk.Node) { count++ })
		if count != wanted {
			t.Errorf("%d nodes of %d", count, wanted)
		}
	}
}

func TestMembers(t *testing.T) {
	root, err := cmk.Parse([]byte("[b]: /c 'd'\n\n``` e f\ng\n```\n3) ![h *i*](/j)\n\n```\n```\n"), cmk.Options{})
	if err != nil {
		t.Fatal(err)
	}
	definition, code, list, empty := root.Children[0], root.Children[1], root.Children[2], root.Children[3]
	image := list.Children[0].Children[0].Children[0]
	for _, it := range []struct{ got, want any }{
		{[]any{definition.Label, definition.URL, definition.Title, definition.Data.Lines}, []any{"b", "/c", "d", [2]int{1, 1}}},
		{[]any{code.Lang, code.Meta, code.Value, code.Data.FinalNewline}, []any{"e", "f", "g", (*bool)(nil)}},
		{[]any{list.Ordered, list.Start, list.Spread, list.Data.Marker}, []any{true, 3, false, ")"}},
		{[]any{image.URL, image.Alt, image.Data.Children[1].Type}, []any{"/j", "h i", "emphasis"}},
		{[]any{empty.Value, *empty.Data.FinalNewline}, []any{"", false}},
	} {
		if !reflect.DeepEqual(it.got, it.want) {
			t.Errorf("%v, not %v", it.got, it.want)
		}
	}
}

func TestGoroutines(t *testing.T) {
	var all sync.WaitGroup
	for i := 0; i < 8; i++ {
		all.Add(1)
		go func() {
			defer all.Done()
			for n := 0; n < 200; n++ {
				text, want := bytes.Repeat([]byte("a *b*\n\n"), n), bytes.Repeat([]byte("<p>a <em>b</em></p>\n"), n)
				if html, err := cmk.HTML(text, cmk.Options{}); err != nil || !bytes.Equal(html, want) {
					t.Errorf("%d paragraphs: %d bytes, %v", n, len(html), err)
				}
				runtime.Gosched()
			}
		}()
	}
	all.Wait()
}
