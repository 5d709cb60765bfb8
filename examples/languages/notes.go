// Formats standard input at 60 columns.
//
//	go build -o notes notes.go
package main

/*
#cgo pkg-config: rudignals
#include <rudignals.h>
*/
import "C"

import (
	"fmt"
	"io"
	"os"
	"unsafe"
)

// Refused is the answer of a call that was not done.
type Refused struct{ Code, Number uint32 }

func (r Refused) Error() string {
	return fmt.Sprintf("%s (N %d)", C.GoString(C.rudignals_code_words(C.uint32_t(r.Code))), r.Number)
}

func done(answer C.uint64_t) (uint32, error) {
	if answer>>32 != 0 {
		return 0, Refused{uint32(answer >> 32), uint32(answer)}
	}
	return uint32(answer), nil
}

func slice(bytes []byte) (*C.uint8_t, C.size_t) {
	if len(bytes) == 0 {
		return nil, 0
	}
	return (*C.uint8_t)(unsafe.Pointer(&bytes[0])), C.size_t(len(bytes))
}

// Format makes the digest of notes.
func Format(options, notes []byte) ([]byte, error) {
	o, oLen := slice(options)
	n, nLen := slice(notes)
	length, err := done(C.rudignals_measure(o, oLen, n, nLen))
	if err != nil {
		return nil, err
	}
	digest := make([]byte, length)
	d, dLen := slice(digest)
	_, err = done(C.rudignals_write(o, oLen, n, nLen, d, dLen))
	return digest, err
}

func main() {
	options := []byte{C.RUDIGNALS_TAG_WIDTH, 0, 2, 0, 60}
	notes, err := io.ReadAll(os.Stdin)
	if err != nil {
		fmt.Fprintln(os.Stderr, err)
		os.Exit(1)
	}
	digest, err := Format(options, notes)
	if err != nil {
		fmt.Fprintln(os.Stderr, "refused:", err)
		os.Exit(1)
	}
	if _, err = os.Stdout.Write(digest); err != nil {
		os.Exit(1)
	}
}
