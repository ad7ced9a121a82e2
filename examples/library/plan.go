// Prints a plan, as plan.c does. It calls the library with cgo:
// cd examples/library && go run plan.go ../trip.toml ../trip.case.json
package main

/*
#cgo CFLAGS: -I${SRCDIR}/../../dist
#cgo LDFLAGS: ${SRCDIR}/../../dist/libsagas.a
#include "sagas.h"
*/
import "C"

import (
	"errors"
	"fmt"
	"os"
	"strings"
	"unsafe"
)

func start(text []byte) *C.uint8_t {
	if len(text) == 0 {
		return nil
	}
	return (*C.uint8_t)(unsafe.Pointer(&text[0]))
}

// Plan returns an answer. If yes is true, it is a plan. Otherwise, it is a chain, which proves that
// no plan is feasible.
func Plan(definition, sagaCase []byte) (text string, yes bool, err error) {
	buffer := make([]byte, 4096)
	for {
		var used C.size_t
		status := C.sagas_plan(start(definition), C.size_t(len(definition)), start(sagaCase), C.size_t(len(sagaCase)), start(buffer), C.size_t(len(buffer)), &used)
		switch status {
		case C.SAGAS_OK, C.SAGAS_REJECTED:
			return string(buffer[:used]), status == C.SAGAS_OK, nil
		case C.SAGAS_BUFFER_TOO_SMALL:
			buffer = make([]byte, used)
		case C.SAGAS_INVALID:
			return "", false, errors.New(string(buffer[:used]))
		default:
			return "", false, errors.New("sagas: no memory")
		}
	}
}

func main() {
	definition, err := os.ReadFile(os.Args[1])
	if err == nil {
		var sagaCase []byte
		if sagaCase, err = os.ReadFile(os.Args[2]); err == nil {
			var text string
			var yes bool
			if text, yes, err = Plan(definition, sagaCase); err == nil {
				fmt.Print(text)
				if !yes {
					os.Exit(1)
				}
				return
			}
		}
	}
	fmt.Fprintln(os.Stderr, strings.TrimSpace(err.Error()))
	os.Exit(3)
}
