package sagas

import (
	"context"
	"encoding/json"
	"errors"
	"fmt"
	"strings"
	"sync"
	"sync/atomic"
	"time"
)

// mostText is how many characters of an error are stored.
const mostText = 4000

// Task is one attempt of a step, as its function gets it.
type Task[In any] struct {
	// Saga is the name of the definition.
	Saga string
	// Key is the saga's key.
	Key string
	// Step is the name of the step. If the step is there for items, the name has the number of the
	// item behind it, as ship-2.
	Step string
	// DeclaredStep is the name as it was declared: ship, or hotel/room of an included saga.
	DeclaredStep string
	// Index is the number of the step's item, from 0; -1 if it has none.
	Index int
	// ItemKey is the key of the item, if the items are of an object; else it is empty. See Item.
	ItemKey string
	// Attempt is the number of the attempt, from 1.
	Attempt int
	// IdempotencyKey is the key to pass to other services. It is the same for all attempts, and
	// another one for the compensation.
	IdempotencyKey string
	// AttemptID is the name of the attempt at the service.
	AttemptID string
	// Input is the saga's input.
	Input In
	// Deadline is when the saga is aborted if it has not ended, or the zero time.
	Deadline time.Time
	// Traceparent is the W3C trace context that the saga was started in, or empty: the parent of a
	// span of this attempt.
	Traceparent string

	held *held
}

func (t Task[In]) resultOf(step string) (json.RawMessage, bool) {
	if t.held == nil {
		return nil, false
	}
	found, ok := t.held.Results[step]
	return found, ok
}

// Results returns the results of the steps that this one needs, in JSON. See Result.
func (t Task[In]) Results() map[string]json.RawMessage {
	found := map[string]json.RawMessage{}
	if t.held != nil {
		for name, value := range t.held.Results {
			found[name] = value
		}
	}
	return found
}

// Item returns the item of a step that is there for items. If it has none, the error is ErrNoItem.
func Item[T, In any](task Task[In]) (T, error) {
	var value T
	if task.Index < 0 || task.held == nil {
		return value, fmt.Errorf("%w: %s", ErrNoItem, task.Step)
	}
	err := decode(task.held.Item, &value, "item")
	return value, err
}

// Given returns what the saga that includes the step's saga gives to it; the zero value if it gives
// nothing.
func Given[T, In any](task Task[In]) (T, error) {
	var value T
	if task.held == nil || len(task.held.Given) == 0 {
		return value, nil
	}
	err := decode(task.held.Given, &value, "given")
	return value, err
}

// Progress says how far the function is, from 0 to 1, with a text for people. The next heartbeat
// sends it; only the last one counts. It does not block.
func (t Task[In]) Progress(fraction float64, detail string) {
	if t.held != nil && fraction >= 0 && fraction <= 1 {
		t.held.progress.Store(&progressNote{fraction, cut(detail, 200)})
	}
}

// CompensationTask is one attempt of a compensation, as its function gets it.
type CompensationTask[In, Out any] struct {
	Task[In]
	// Result is what the step returned.
	Result Out
	// OriginalIdempotencyKey is the idempotency key of the step that is undone.
	OriginalIdempotencyKey string
}

// progressNote is the progress of a task: a fraction, and a text.
type progressNote struct {
	fraction float64
	detail   string
}

// leased is a task as the service writes it.
type leased struct {
	Name        string                     `json:"name"`
	AttemptID   string                     `json:"attempt_id"`
	Lease       string                     `json:"lease"`
	Seconds     float64                    `json:"seconds"`
	Deadline    time.Time                  `json:"deadline_at"`
	Cancelled   StopReason                 `json:"cancelled"`
	Definition  string                     `json:"definition"`
	Key         string                     `json:"key"`
	Step        string                     `json:"step"`
	Declared    string                     `json:"declared_step"`
	Index       *int                       `json:"index"`
	ItemKey     string                     `json:"item_key"`
	Item        json.RawMessage            `json:"item"`
	Given       json.RawMessage            `json:"given"`
	Attempt     int                        `json:"attempt"`
	Input       json.RawMessage            `json:"input"`
	Results     map[string]json.RawMessage `json:"results"`
	Result      json.RawMessage            `json:"result"`
	Idempotency string                     `json:"idempotency_key"`
	Original    string                     `json:"original_idempotency_key"`
	Traceparent string                     `json:"traceparent"`
}

// held is a task that this worker has.
type held struct {
	leased
	claimed  time.Time // when its lease began
	begin    time.Time // the latest time to begin it, so that its first heartbeat comes in time
	progress atomic.Pointer[progressNote]
	sent     *progressNote // the progress that was sent last
}

func taskOf[In any](h *held) (Task[In], error) {
	task := Task[In]{
		Saga: h.Definition, Key: h.Key, Step: h.Step, Attempt: h.Attempt, AttemptID: h.AttemptID,
		IdempotencyKey: h.Idempotency, Deadline: h.Deadline, Traceparent: h.Traceparent, held: h,
		DeclaredStep: h.Declared, Index: -1, ItemKey: h.ItemKey,
	}
	if h.Index != nil {
		task.Index = *h.Index
	}
	return task, decode(h.Input, &task.Input, "input")
}

// StopReason says why a function should stop.
type StopReason string

// The reasons to stop. NotStopped is the one of a function that should go on.
const (
	NotStopped StopReason = ""
	// Aborted: the saga was aborted. The context is canceled.
	Aborted StopReason = "aborted"
	// Failed: another step failed, so the saga is about to be planned. The context is not canceled.
	Failed StopReason = "failed"
	// Lost: the lease is lost, so another worker has the task, or its outcome was reported. The
	// context is canceled.
	Lost StopReason = "lost"
	// Closing: the worker was stopped, and its shutdown timeout is over. The context is canceled.
	Closing StopReason = "closing"
)

// Stopped returns why the function that has this context should stop.
//
// An abort cancels an attempt once. If the function did not say what happened, it is called again.
// Then Stopped returns Aborted from the beginning, and its context is not canceled by the abort, so
// that it can find out. For a compensation, only Lost and Closing occur.
func Stopped(ctx context.Context) StopReason {
	if call, ok := ctx.Value(callKey{}).(*call); ok {
		call.mu.Lock()
		defer call.mu.Unlock()
		return call.reason
	}
	return NotStopped
}

type callKey struct{}

// call is a function that runs.
type call struct {
	cancel context.CancelFunc
	mu     sync.Mutex
	reason StopReason
}

// stop says why the function should stop, and may cancel its context.
func (c *call) stop(reason StopReason, cancel bool) {
	c.mu.Lock()
	c.reason = reason
	c.mu.Unlock()
	if cancel {
		c.cancel()
	}
}

// detached has the values of a context, and does not end with it.
type detached struct{ of context.Context }

func (detached) Deadline() (time.Time, bool) { return time.Time{}, false }
func (detached) Done() <-chan struct{}       { return nil }
func (detached) Err() error                  { return nil }
func (d detached) Value(key any) any         { return d.of.Value(key) }

// outcome is how a call ended.
type outcome string

const (
	succeeded   outcome = "complete"
	failed      outcome = "fail"
	permanently outcome = "final"
	unknown     outcome = "unknown"
)

// outcomeError is an error of a step's function that says what happened.
type outcomeError struct {
	kind outcome
	error
}

func (e *outcomeError) Unwrap() error { return errors.Unwrap(e.error) }

// Fail returns an error for a step's function: there was no effect, none will follow, and further
// attempts are useless. Its arguments are those of fmt.Errorf.
func Fail(format string, values ...any) error {
	return &outcomeError{permanently, fmt.Errorf(format, values...)}
}

// Retry returns an error for a step's function: there was no effect. Another attempt follows, as
// often as the step's definition says. Its arguments are those of fmt.Errorf.
func Retry(format string, values ...any) error {
	return &outcomeError{failed, fmt.Errorf(format, values...)}
}

// Unknown returns an error for a step's function: the effect may have happened. The attempt repeats
// after its back-off, with the same idempotency key. Every error means this, except those of Fail
// and Retry. Its arguments are those of fmt.Errorf.
func Unknown(format string, values ...any) error {
	return &outcomeError{unknown, fmt.Errorf(format, values...)}
}

// taskReport is a report of a task. Alone it is sent without the ID and the outcome, which its path
// has.
type taskReport struct {
	AttemptID string           `json:"attempt_id,omitempty"`
	Lease     string           `json:"lease"`
	Outcome   outcome          `json:"outcome,omitempty"`
	Result    *json.RawMessage `json:"result,omitempty"`
	Error     *string          `json:"error,omitempty"`
	Final     bool             `json:"final,omitempty"`
	replaced  bool             // the service refused the result, and Result says so
}

// size is about how many bytes the report has.
func (r taskReport) size() int {
	size := 400
	if r.Result != nil {
		size += len(*r.Result)
	}
	if r.Error != nil {
		size += 2 * len(*r.Error)
	}
	return size
}

func reportOfError(err error) taskReport {
	kind, text := unknown, err.Error()
	var said *outcomeError
	if errors.As(err, &said) {
		kind = said.kind
	}
	if text == "" {
		text = fmt.Sprintf("%T", err)
	}
	text = cut(text, mostText)
	if kind == permanently {
		return taskReport{Outcome: failed, Error: &text, Final: true}
	}
	return taskReport{Outcome: kind, Error: &text}
}

// reportOfResult says that the effect happened. A result that JSON cannot hold must not hide that.
func reportOfResult(result any) (report taskReport) {
	defer func() {
		if value := recover(); value != nil {
			report = unstorable(fmt.Sprintf("panic: %v", value))
		}
	}()
	text, err := json.Marshal(result)
	if err != nil {
		return unstorable(err.Error())
	}
	raw := json.RawMessage(text)
	return taskReport{Outcome: succeeded, Result: &raw}
}

func unstorable(why string) taskReport {
	text, _ := json.Marshal(map[string]string{"unstorable": cut(why, mostText)})
	raw := json.RawMessage(text)
	return taskReport{Outcome: succeeded, Result: &raw}
}

// cut shortens a text to so many characters.
func cut(text string, most int) string {
	text = strings.ToValidUTF8(text, "\uFFFD")
	if len(text) <= most {
		return text
	}
	count := 0
	for at := range text {
		if count++; count > most {
			return text[:at]
		}
	}
	return text
}
