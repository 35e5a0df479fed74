// Decodes what the adapter sent in transcripts by go-dap, with every field known to it.
//
// usage: strict_decoding TRANSCRIPT..
//
// In a transcript each line that begins with `<-` is a content that the adapter sent. Prints each that go-dap refuses, and how many it
// took. Ends with status 1 where it refuses one, or where there is none.
package main

import (
	"bufio"
	"bytes"
	"encoding/json"
	"fmt"
	"os"
	"strings"

	"github.com/google/go-dap"
)

const (
	sent        = "<- " // before a content of the adapter's
	longestLine = 1 << 24
)

// decode returns why go-dap refuses a content, or nil.
func decode(content []byte) error {
	message, err := dap.DecodeProtocolMessage(content)
	if err != nil {
		return err
	}
	decoder := json.NewDecoder(bytes.NewReader(content))
	decoder.DisallowUnknownFields()
	return decoder.Decode(message)
}

// refused counts the adapter's contents in a transcript, and those of them that go-dap refuses.
func refused(place string) (all, bad int, err error) {
	file, err := os.Open(place)
	if err != nil {
		return 0, 0, err
	}
	defer file.Close()
	lines := bufio.NewScanner(file)
	lines.Buffer(nil, longestLine)
	for lines.Scan() {
		if !strings.HasPrefix(lines.Text(), sent) {
			continue
		}
		content := strings.TrimPrefix(lines.Text(), sent)
		all++
		if fault := decode([]byte(content)); fault != nil {
			bad++
			fmt.Printf("%s: %v: %s\n", place, fault, content)
		}
	}
	return all, bad, lines.Err()
}

func main() {
	all, bad := 0, 0
	for _, place := range os.Args[1:] {
		found, wrong, err := refused(place)
		if err != nil {
			fmt.Println(err)
			os.Exit(1)
		}
		all, bad = all+found, bad+wrong
	}
	fmt.Printf("go-dap: %d messages decoded, %d refused\n", all-bad, bad)
	if bad > 0 || all == 0 {
		os.Exit(1)
	}
}
