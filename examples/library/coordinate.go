// A coordinator in Go, with cgo. It answers requests on standard input, as `sagas drive --lines`
// does:
// cd examples/library && go run coordinate.go ../trip.toml <../trip.requests
package main

/*
#cgo CFLAGS: -I${SRCDIR}/../../dist
#cgo LDFLAGS: ${SRCDIR}/../../dist/libsagas.a
#include "sagas.h"
*/
import "C"

import (
	"bufio"
	"errors"
	"fmt"
	"os"
	"strings"
	"unsafe"
)

func start(text []byte) *C.uint8_t {
	if len(text) == 0 {
		return nil
	}
	return (*C.uint8_t)(unsafe.Pointer(&text[0]))
}

// Coordinator runs the sagas of one definition. Use it from one goroutine at a time, and close it.
type Coordinator struct {
	inner  C.struct_sagas_coordinator
	buffer []byte
}

// Open opens a coordinator from a log, which may be empty. It returns the lines to append to it.
func Open(definition, log []byte) (*Coordinator, string, error) {
	it := &Coordinator{buffer: make([]byte, 4096)}
	span := C.struct_sagas_span{start: 0, end: C.size_t(len(definition))}
	for {
		var logUsed, used C.size_t
		status := C.sagas_open(&it.inner, start(definition), C.size_t(len(definition)), &span, 1, start(log), C.size_t(len(log)),
			&logUsed, start(it.buffer), C.size_t(len(it.buffer)), &used)
		switch status {
		case C.SAGAS_OK:
			return it, string(it.buffer[:used]), nil
		case C.SAGAS_BUFFER_TOO_SMALL:
			it.buffer = make([]byte, used)
		case C.SAGAS_INVALID:
			return nil, "", errors.New(strings.TrimSpace(string(it.buffer[:used])))
		default:
			return nil, "", errors.New("sagas: no memory")
		}
	}
}

// Answer executes a request once. Append the lines to the log before you act on the reply.
func (it *Coordinator) Answer(request []byte) (lines, reply string, err error) {
	var used, linesUsed C.size_t
	status := C.sagas_answer(&it.inner, start(request), C.size_t(len(request)), start(it.buffer), C.size_t(len(it.buffer)), &used, &linesUsed)
	for status == C.SAGAS_BUFFER_TOO_SMALL { // the request was executed, and its reply is kept
		it.buffer = make([]byte, used)
		status = C.sagas_reply(&it.inner, start(it.buffer), C.size_t(len(it.buffer)), &used, &linesUsed)
	}
	if status != C.SAGAS_OK {
		return "", "", errors.New("sagas: the coordinator is closed")
	}
	return string(it.buffer[:linesUsed]), string(it.buffer[linesUsed:used]), nil
}

// Close frees the memory of the coordinator.
func (it *Coordinator) Close() {
	C.sagas_close(&it.inner)
}

// marked returns the lines, each after a plus sign.
func marked(lines string) string {
	if lines == "" {
		return ""
	}
	return "+" + strings.ReplaceAll(strings.TrimSuffix(lines, "\n"), "\n", "\n+") + "\n"
}

func run(path string) error {
	definition, err := os.ReadFile(path)
	if err != nil {
		return err
	}
	it, lines, err := Open(definition, nil)
	if err != nil {
		return err
	}
	defer it.Close()
	fmt.Print(marked(lines))
	requests := bufio.NewScanner(os.Stdin)
	requests.Buffer(nil, 1<<20)
	for requests.Scan() {
		lines, reply, err := it.Answer(requests.Bytes())
		if err != nil {
			return err
		}
		fmt.Print(marked(lines), reply)
	}
	return requests.Err()
}

func main() {
	if err := run(os.Args[1]); err != nil {
		fmt.Fprintln(os.Stderr, err)
		os.Exit(3)
	}
}
