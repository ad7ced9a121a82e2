//go:build sagas_planner

package planner

// #include <stdlib.h>
// #include "sagas.h"
import "C"

import (
	"encoding/json"
	"errors"
	"fmt"
	"strings"
	"unsafe"
)

const firstBuffer = 4096

// ErrNoMemory means that the library got no memory. The same call may succeed later.
var ErrNoMemory = errors.New("planner: no memory")

// FormatError means that a text is not of its form. Its text is the line that the program prints.
type FormatError struct{ Text string }

// Error returns the text.
func (e *FormatError) Error() string { return "planner: " + e.Text }

// FaultError means that an answer is not right. Its text names the fault.
type FaultError struct{ Text string }

// Error returns the text.
func (e *FaultError) Error() string { return "planner: the answer is not right: " + e.Text }

// Answer is a plan, or the proof that there is none.
type Answer struct {
	// Certificate is the answer in JSON, which Check verifies.
	Certificate []byte
	// Feasible is false if no plan is allowed. Then the certificate is a chain of steps that shows it.
	Feasible bool
	// Cost is that of the plan.
	Cost int64
}

// Plan plans how a saga ends at the least cost. The case says how far each step is.
//
// The error is a *FormatError if a text is not of its form, or ErrNoMemory.
func Plan(definition, sagaCase []byte) (Answer, error) {
	text, yes, err := call(func(buffer []byte, used *C.size_t) C.uint32_t {
		return C.sagas_plan(at(definition), size(definition), at(sagaCase), size(sagaCase), at(buffer), size(buffer), used)
	})
	answer := Answer{Certificate: text, Feasible: yes}
	if err != nil || !yes {
		return answer, err
	}
	var planned struct{ Cost int64 }
	err = json.Unmarshal(text, &planned)
	answer.Cost = planned.Cost
	return answer, err
}

// Verdict is what Check found.
type Verdict struct {
	// Valid is true if the answer is right: a plan of the least cost, or a chain.
	Valid bool
	// Blocked is true if the answer shows that no plan is allowed.
	Blocked bool
	// Cost is that of the plan, if there is one.
	Cost int64
	// Text is what the program prints: "least N", "blocked" or "no FAULT".
	Text string
}

// Check verifies an answer of any planner. Its errors are those of Plan.
func Check(definition, sagaCase, answer []byte) (Verdict, error) {
	text, yes, err := call(func(buffer []byte, used *C.size_t) C.uint32_t {
		return C.sagas_check(at(definition), size(definition), at(sagaCase), size(sagaCase), at(answer), size(answer),
			at(buffer), size(buffer), used)
	})
	found := Verdict{Valid: yes, Text: strings.TrimSpace(string(text))}
	if err != nil || !yes {
		return found, err
	}
	if found.Blocked = found.Text == "blocked"; !found.Blocked {
		_, err = fmt.Sscanf(found.Text, "least %d", &found.Cost)
	}
	return found, err
}

// Findings is what Audit found.
type Findings struct {
	// Valid is true if each event of the log was allowed.
	Valid bool
	// Sagas, Ended, Stuck and Events are numbers of a valid log.
	Sagas, Ended, Stuck, Events int64
	// Text is what the program prints. It names the first event that was not allowed, counted from 0.
	Text string
}

// Audit verifies a log of sagas of some definitions, in the order in which the log counts them. Its
// errors are those of Plan.
func Audit(log []byte, definitions ...[]byte) (Findings, error) {
	var whole []byte
	spans := make([]C.struct_sagas_span, len(definitions)+1) // one more, so that there is a first
	for number, one := range definitions {
		spans[number].start = C.size_t(len(whole))
		whole = append(whole, one...)
		spans[number].end = C.size_t(len(whole))
		whole = append(whole, '\n')
	}
	text, yes, err := call(func(buffer []byte, used *C.size_t) C.uint32_t {
		return C.sagas_audit_all(at(log), size(log), at(whole), size(whole), &spans[0], C.size_t(len(definitions)),
			at(buffer), size(buffer), used)
	})
	found := Findings{Valid: yes, Text: strings.TrimSpace(string(text))}
	if err == nil && yes {
		_, err = fmt.Sscanf(found.Text, "yes sagas %d ended %d stuck %d events %d", &found.Sagas, &found.Ended, &found.Stuck, &found.Events)
	}
	return found, err
}

// Draw draws a definition in the language of Graphviz. Its errors are those of Plan.
func Draw(definition []byte) (string, error) {
	text, _, err := call(func(buffer []byte, used *C.size_t) C.uint32_t {
		return C.sagas_draw(at(definition), size(definition), at(buffer), size(buffer), used)
	})
	return string(text), err
}

// DrawCase draws a definition with the states of a case. Its errors are those of Plan.
func DrawCase(definition, sagaCase []byte) (string, error) {
	text, _, err := call(func(buffer []byte, used *C.size_t) C.uint32_t {
		return C.sagas_draw_case(at(definition), size(definition), at(sagaCase), size(sagaCase), at(buffer), size(buffer), used)
	})
	return string(text), err
}

// DrawAnswer draws a case with what an answer decides. The error is a *FaultError if the answer is
// not right. Its other errors are those of Plan.
func DrawAnswer(definition, sagaCase, answer []byte) (string, error) {
	text, yes, err := call(func(buffer []byte, used *C.size_t) C.uint32_t {
		return C.sagas_draw_answer(at(definition), size(definition), at(sagaCase), size(sagaCase), at(answer), size(answer),
			at(buffer), size(buffer), used)
	})
	if err == nil && !yes {
		return "", &FaultError{strings.TrimSpace(string(text))}
	}
	return string(text), err
}

// call calls the library with a buffer that is large enough. It returns the text, and whether the
// status was SAGAS_OK.
func call(ask func(buffer []byte, used *C.size_t) C.uint32_t) ([]byte, bool, error) {
	buffer := make([]byte, firstBuffer)
	for {
		var used C.size_t
		switch status := ask(buffer, &used); status {
		case C.SAGAS_OK, C.SAGAS_REJECTED:
			return buffer[:used], status == C.SAGAS_OK, nil
		case C.SAGAS_BUFFER_TOO_SMALL:
			buffer = make([]byte, used)
		case C.SAGAS_INVALID:
			return nil, false, &FormatError{strings.TrimSpace(string(buffer[:used]))}
		case C.SAGAS_NO_MEMORY:
			return nil, false, ErrNoMemory
		default:
			return nil, false, fmt.Errorf("planner: status %d", uint32(status))
		}
	}
}

func at(text []byte) *C.uint8_t {
	if len(text) == 0 {
		return nil
	}
	return (*C.uint8_t)(unsafe.Pointer(&text[0]))
}

func size(text []byte) C.size_t { return C.size_t(len(text)) }
