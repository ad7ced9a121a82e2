package sagas

import (
	"bytes"
	"encoding/json"
	"errors"
	"fmt"
	"io"
	"time"
)

// Phase says how far a saga is.
type Phase string

// The phases of a saga. UndoFailed is only for filters: it selects recovered sagas of which a
// compensation failed permanently.
const (
	Open       Phase = "open"
	Completed  Phase = "completed"
	Recovered  Phase = "recovered"
	Stuck      Phase = "stuck"
	Resolved   Phase = "resolved"
	UndoFailed Phase = "undo_failed"
)

// Saga is a saga as the service sees it.
type Saga struct {
	Key        string `json:"key"`
	Definition string `json:"definition"`
	// Version is that of the definition, or 0 if the service does not report it.
	Version int   `json:"version"`
	Phase   Phase `json:"phase"`
	// Over is true if the saga is not open.
	Over bool `json:"over"`
	// Aborted is true if the saga was aborted.
	Aborted bool `json:"aborted"`
	// Started is when the saga was started.
	Started time.Time `json:"started_at"`
	// Ended is when it ended or got stuck, or the zero time.
	Ended time.Time `json:"ended_at"`
	// Deadline is when the saga is aborted if it has not ended, or the zero time.
	Deadline time.Time         `json:"deadline_at"`
	Labels   map[string]string `json:"labels"`
	// Note is that of the operator who resolved the saga.
	Note string `json:"note"`
	// Input is the saga's input in JSON. See Input.
	Input json.RawMessage `json:"input"`
	// States has the state of each step.
	States map[string]string `json:"states"`
	// Early has the reports, "complete" or "fail", that are stored of steps which have not begun.
	Early map[string]string `json:"early"`
	// Results has the results, in JSON, of the steps that are in effect. See Result.
	Results map[string]json.RawMessage `json:"results"`
	// Errors has what failed steps raised last.
	Errors map[string]string `json:"errors"`
	// OptionalFailures has the failed steps without which the saga continued.
	OptionalFailures []string `json:"optional_failures"`
	// Plan is the last plan, or nil if nothing failed.
	Plan *Plan `json:"plan"`
	// Waits has the attempts that wait.
	Waits []Waiting `json:"waits"`
	// Progress has what running functions reported last.
	Progress []Progress `json:"progress"`
}

// Plan is how a saga ends.
type Plan struct {
	// Cost is nil if no plan is feasible.
	Cost *int64 `json:"cost"`
	// Pivot is the pivot of the saga, or the empty text. With a pivot, the costs have no meaning of
	// their own.
	Pivot string `json:"pivot"`
	// BlockingSteps are the steps that make every plan infeasible.
	BlockingSteps []string      `json:"blocking_steps"`
	Steps         []PlannedStep `json:"steps"`
}

// PlannedStep is what a plan decides about a step. A cost of nil means never.
type PlannedStep struct {
	Step       string `json:"step"`
	Found      string `json:"found"`
	CostToKeep *int64 `json:"cost_to_keep"`
	CostToDrop *int64 `json:"cost_to_drop"`
	Decision   string `json:"decision"`
}

// Waiting is an attempt that waits.
type Waiting struct {
	// Step is empty if no node executes the saga.
	Step    string `json:"step"`
	Undo    bool   `json:"undo"`
	Attempt int    `json:"attempt"`
	// Why is what the attempt waits for, for example "worker" or "approval".
	Why   string    `json:"why"`
	Since time.Time `json:"since_at"`
	// Until is the zero time if there is no limit.
	Until time.Time `json:"until_at"`
	// Detail is what was raised last, or the name of the worker.
	Detail string `json:"detail"`
	// Person is true if a person must report something.
	Person bool `json:"person"`
}

// Progress is how far a running function is.
type Progress struct {
	Step     string  `json:"step"`
	Fraction float64 `json:"fraction"`
	Detail   string  `json:"detail"`
}

// Summary is a saga in a list.
type Summary struct {
	Key        string `json:"key"`
	Definition string `json:"definition"`
	// Version is that of the definition, or 0 if the service does not know it.
	Version    int               `json:"version"`
	Phase      Phase             `json:"phase"`
	Started    time.Time         `json:"started_at"`
	Ended      time.Time         `json:"ended_at"`
	Deadline   time.Time         `json:"deadline_at"`
	UndoFailed bool              `json:"undo_failed"`
	Labels     map[string]string `json:"labels"`
	Note       string            `json:"note"`
}

// Results has results of steps: a *Saga, a Task or a CompensationTask.
type Results interface {
	resultOf(step string) (json.RawMessage, bool)
}

func (s *Saga) resultOf(step string) (json.RawMessage, bool) {
	found, ok := s.Results[step]
	return found, ok
}

// Result returns the result of a step of a saga, or of a step that a task needs.
//
// If the step has no result that is in effect, the error is ErrNoResult. If a task needs an optional
// step that has failed, the error is ErrStepFailed. Into a T of type any,
// numbers are read as json.Number, so that large integers keep their value.
func Result[T any](from Results, step string) (T, error) {
	var value T
	found, ok := from.resultOf(step)
	if !ok {
		return value, fmt.Errorf("%w of step %q", ErrNoResult, step)
	}
	if failure, ok := text(found, "$failed", 1); ok {
		return value, fmt.Errorf("%w: %s: %s", ErrStepFailed, step, failure)
	}
	err := decode(found, &value, "result of "+step)
	return value, err
}

// Input returns the input of a saga.
func Input[T any](saga *Saga) (T, error) {
	var value T
	err := decode(saga.Input, &value, "input")
	return value, err
}

// decode reads a JSON value. Its errors name the place, but not the value.
func decode(text json.RawMessage, into any, what string) error {
	if raw, ok := into.(*json.RawMessage); ok {
		*raw = append((*raw)[:0], text...)
		return nil
	}
	reader := json.NewDecoder(bytes.NewReader(text))
	reader.UseNumber()
	err := reader.Decode(into)
	var mismatch *json.UnmarshalTypeError
	switch {
	case err == nil:
		return nil
	case errors.As(err, &mismatch) && mismatch.Field != "":
		return fmt.Errorf("sagas: the %s does not fit %T: %s must be %s", what, into, mismatch.Field, mismatch.Type)
	case errors.As(err, &mismatch):
		return fmt.Errorf("sagas: the %s does not fit %s", what, mismatch.Type)
	case errors.Is(err, io.EOF):
		return fmt.Errorf("sagas: the %s is missing", what)
	}
	return fmt.Errorf("sagas: the %s does not fit %T", what, into)
}
