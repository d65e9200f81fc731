// Answers lines of hex by the deterministic encoding of fxamacker/cbor: `core` in the order of RFC 8949, section 4.2.1,
// and `canonical` in that of section 4.2.3. A line that it does not read is answered by `refused`, one in which a map
// has two equal keys by `duplicate`.
package main

import (
	"bufio"
	"encoding/hex"
	"errors"
	"fmt"
	"os"

	"github.com/fxamacker/cbor"
)

func answer(line string, decoding cbor.DecMode, encoding cbor.EncMode) (text string) {
	defer func() {
		// A key that cannot be the key of a Go map.
		if recover() != nil {
			text = "refused"
		}
	}()
	data, err := hex.DecodeString(line)
	if err != nil {
		return "refused"
	}
	var value interface{}
	if err := decoding.Unmarshal(data, &value); err != nil {
		var duplicate *cbor.DupMapKeyError
		if errors.As(err, &duplicate) {
			return "duplicate"
		}
		return "refused"
	}
	encoded, err := encoding.Marshal(value)
	if err != nil {
		return "refused"
	}
	return "ok " + hex.EncodeToString(encoded)
}

func main() {
	options := cbor.CanonicalEncOptions()
	if len(os.Args) == 2 && os.Args[1] == "core" {
		options = cbor.CoreDetEncOptions()
	}
	encoding, err := options.EncMode()
	if err != nil {
		panic(err)
	}
	decoding, err := cbor.DecOptions{
		DupMapKey:        cbor.DupMapKeyEnforcedAPF,
		MaxArrayElements: 1 << 20,
		MaxMapPairs:      1 << 20,
		MaxNestedLevels:  256,
	}.DecMode()
	if err != nil {
		panic(err)
	}
	lines := bufio.NewScanner(os.Stdin)
	lines.Buffer(nil, 1<<24)
	output := bufio.NewWriter(os.Stdout)
	defer output.Flush()
	for lines.Scan() {
		fmt.Fprintln(output, answer(lines.Text(), decoding, encoding))
	}
}
