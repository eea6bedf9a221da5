package cmk

import "encoding/json"

// A Node of the tree, which is mdast. docs/cmk.md says which members each type has; the others are zero, as is one that is null in JSON.
type Node struct {
	Type       string  `json:"type"`
	Data       Data    `json:"data"`
	Depth      int     `json:"depth"`      // the level of a heading
	Lang       string  `json:"lang"`       // the first word of a code block's info string
	Meta       string  `json:"meta"`       // the other words
	Identifier string  `json:"identifier"` // the label of a definition, as labels are compared
	Label      string  `json:"label"`
	Ordered    bool    `json:"ordered"`
	Start      int     `json:"start"` // the number of an ordered list's first item
	Spread     bool    `json:"spread"`
	Value      string  `json:"value"` // the text of a leaf
	URL        string  `json:"url"`
	Title      string  `json:"title"`
	Alt        string  `json:"alt"`
	Children   []*Node `json:"children"`
}

// Data is what mdast lacks.
type Data struct {
	Lines              [2]int  `json:"lines"`              // the first and the last line of a leaf, from 1
	Markers            []int   `json:"markers"`            // the lines of the document that have only a marker
	Label              string  `json:"label"`              // the label as the source has it, unless it is the node's
	Info               string  `json:"info"`               // the info string, unless Lang and Meta make it up
	FinalNewline       *bool   `json:"finalNewline"`       // false if the text doesn't end in the line feed that Value omits, else nil
	Marker             string  `json:"marker"`             // the marker of a list
	CharacterReference bool    `json:"characterReference"` // the text has a line feed from a character reference
	Children           []*Node `json:"children"`           // the description of an image, unless it is empty or one text
}

// Parse returns the tree of a text: the values of [JSON], at every depth.
func Parse(text []byte, options Options) (*Node, error) {
	written, err := JSON(text, options)
	if err != nil {
		return nil, err
	}
	root := new(Node)
	if err := json.Unmarshal(written, root); err != nil {
		return nil, err
	}
	return root, nil
}

// Walk calls visit for a node and each node inside it, in the order of the text. It passes over the description of an image: HTML has only
// its text, Alt.
func (n *Node) Walk(visit func(*Node)) {
	visit(n)
	for _, child := range n.Children {
		child.Walk(visit)
	}
}
