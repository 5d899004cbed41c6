// Judges the tests of a suite's group with gojsonschema: gojsonschema_driver verdict|errors SUITE.
package main

import (
	"bufio"
	"bytes"
	"encoding/json"
	"fmt"
	"os"

	"github.com/xeipuuv/gojsonschema"
)

type test struct {
	Data interface{} `json:"data"`
}

type group struct {
	Schema interface{} `json:"schema"`
	Tests  []test      `json:"tests"`
}

func main() {
	mode, path := os.Args[1], os.Args[2]
	text, err := os.ReadFile(path)
	check(err)
	var groups []group
	decoder := json.NewDecoder(bytes.NewReader(text))
	decoder.UseNumber()
	check(decoder.Decode(&groups))
	schema, err := gojsonschema.NewSchema(gojsonschema.NewGoLoader(groups[0].Schema))
	check(err)
	out := bufio.NewWriter(os.Stdout)
	defer out.Flush()
	for _, test := range groups[0].Tests {
		result, err := schema.Validate(gojsonschema.NewRawLoader(test.Data))
		check(err)
		word := "valid"
		if !result.Valid() {
			word = "invalid"
		}
		if mode == "verdict" {
			fmt.Fprintln(out, word)
			continue
		}
		fmt.Fprint(out, word, " ", len(result.Errors()))
		if len(result.Errors()) > 0 {
			fmt.Fprint(out, " ", result.Errors()[0].Context().String())
		}
		fmt.Fprintln(out)
	}
}

func check(err error) {
	if err != nil {
		fmt.Fprintln(os.Stderr, err)
		os.Exit(3)
	}
}
