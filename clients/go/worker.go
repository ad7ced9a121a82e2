package sagas

import (
	"context"
	"errors"
	"fmt"
	"os"
	"runtime/debug"
	"time"
)

const (
	defaultConcurrency = 16
	defaultLease       = 30 * time.Second
	defaultWait        = 20 * time.Second
	heartbeats         = 3 // of a lease
)

type workerSettings struct {
	settings
	concurrency int
	lease, wait time.Duration
	name        string
	shutdown    time.Duration
}

// WorkerOption configures a Worker.
type WorkerOption interface {
	applyWorker(*workerSettings)
}

type workerOption func(*workerSettings)

func (o workerOption) applyWorker(w *workerSettings) { o(w) }

// WithConcurrency sets how many functions run at once (default: 16).
func WithConcurrency(functions int) WorkerOption {
	return workerOption(func(w *workerSettings) { w.concurrency = functions })
}

// WithLease sets after how long another worker may have the task of a worker that is gone (default:
// 30 seconds). A running function renews its lease three times in this time. If a service does not
// answer that within a sixth of it, and ten seconds at most, the next service is asked.
func WithLease(lease time.Duration) WorkerOption {
	return workerOption(func(w *workerSettings) { w.lease = lease })
}

// WithWait sets for how long a request for tasks waits at the service, at most 30 seconds (default:
// 20 seconds).
func WithWait(wait time.Duration) WorkerOption {
	return workerOption(func(w *workerSettings) { w.wait = wait })
}

// WithName names the worker, for people (default: of host and process).
func WithName(name string) WorkerOption {
	return workerOption(func(w *workerSettings) { w.name = name })
}

// WithShutdownTimeout sets for how long Run waits for running functions after its context ended
// (default: without limit). Then their contexts are canceled, and Run returns within ten seconds. A
// function that has not ended five seconds later is left alone, and its outcome is not reported. A
// report that no service answers for five seconds is given up.
func WithShutdownTimeout(timeout time.Duration) WorkerOption {
	return workerOption(func(w *workerSettings) { w.shutdown = timeout })
}

// Worker performs steps for a service: it claims tasks, calls functions and reports outcomes.
//
// A task may be performed more than once, so functions pass their idempotency key on. If functions
// are short, one request claims several tasks; those that do not begin within half a second return
// to the service. Reports are repeated until they are answered.
type Worker struct {
	workerSettings
	conn  *connection
	steps map[string]function
	fault error
}

// function calls a step's function, and says how that ended.
type function func(context.Context, *held) taskReport

// NewWorker makes a worker. Declare its functions with Step and Compensation, and call Run. The error
// is ErrInvalidArgument if the URL or an option is not valid.
func NewWorker(url string, options ...WorkerOption) (*Worker, error) {
	w := &Worker{steps: map[string]function{}}
	w.concurrency, w.lease, w.wait = defaultConcurrency, defaultLease, defaultWait
	for _, option := range options {
		option.applyWorker(&w.workerSettings)
	}
	switch {
	case w.concurrency < 1:
		return nil, invalidArgument("concurrency %d is not positive", w.concurrency)
	case w.lease < 500*time.Millisecond || w.lease > time.Hour:
		return nil, invalidArgument("lease %v is not between half a second and an hour", w.lease)
	case w.wait < 0 || w.wait > mostWait:
		return nil, invalidArgument("wait %v is not between 0 and 30 seconds", w.wait)
	}
	if w.name == "" {
		host, _ := os.Hostname()
		w.name = fmt.Sprintf("%s-%d", host, os.Getpid())
	}
	w.name = cut(w.name, 64)
	conn, err := newConnection(url, w.settings)
	if err != nil {
		return nil, err
	}
	w.conn = conn
	return w, nil
}

// Step declares the function that performs a step. Declare all functions before Run.
//
// What the function returns says what happened:
//
//   - a result and nil: the effect happened. The result is stored.
//   - an error of Fail: there was no effect, and no other attempt follows.
//   - an error of Retry: there was no effect, and another attempt may follow.
//   - any other error, or a panic: the outcome is unknown. The attempt repeats after its back-off,
//     with the same idempotency key.
//
// The context is canceled if the saga is aborted or the lease is lost: see Stopped. The worker learns
// of both with a heartbeat. If the input
// does not fit In, the function is not called, and the outcome is unknown, so that a worker with
// another type can perform the task.
func Step[In, Out any](w *Worker, saga, step string, perform func(context.Context, Task[In]) (Out, error)) {
	w.declare(saga+"/"+step, perform == nil, func(ctx context.Context, h *held) taskReport {
		task, err := taskOf[In](h)
		if err != nil {
			return reportOfError(err)
		}
		result, err := perform(ctx, task)
		if err != nil {
			return reportOfError(err)
		}
		return reportOfResult(result)
	})
}

// Compensation declares the function that undoes a step. It gets the step's result. What it returns
// means the same as for Step. Its context is not canceled by an abort.
func Compensation[In, Out any](w *Worker, saga, step string, undo func(context.Context, CompensationTask[In, Out]) error) {
	w.declare(saga+"/"+step+"/undo", undo == nil, func(ctx context.Context, h *held) taskReport {
		task, err := taskOf[In](h)
		whole := CompensationTask[In, Out]{Task: task, OriginalIdempotencyKey: h.Original}
		if err == nil {
			err = decode(h.Result, &whole.Result, "result")
		}
		if err == nil {
			err = undo(ctx, whole)
		}
		if err != nil {
			return reportOfError(err)
		}
		return reportOfResult(nil)
	})
}

func (w *Worker) declare(word string, missing bool, call function) {
	switch {
	case w.fault != nil:
	case missing:
		w.fault = invalidArgument("the function of %s is nil", word)
	case w.steps[word] != nil:
		w.fault = invalidArgument("%s is declared twice; remove one of them", word)
	}
	w.steps[word] = call
}

// Run works until the context ends. Then it claims nothing more, returns tasks that did not begin,
// waits for running functions, reports their outcomes, and returns nil. The context of a function
// does not end with that of Run, but has its values.
//
// A request for tasks that waits at the service when the context ends is answered first: its tasks
// return to the service, too. The worker asks the service to answer it at once. If the service is an
// older one, or a balancer leads that to another one, Run may take as long as WithWait says, even if
// no function runs.
//
// It returns a *Problem if the service refuses the worker, for example ErrUnauthorized or
// ErrForbidden, and ErrInvalidArgument if a declaration is not valid or none was made.
func (w *Worker) Run(ctx context.Context) error {
	if w.fault != nil {
		return w.fault
	}
	if len(w.steps) == 0 {
		return invalidArgument("the worker has no function; declare one with sagas.Step")
	}
	return newRun(w, ctx).run()
}

// call runs a step's function in a goroutine of its own, which the function may end, and makes an
// outcome of that and of a panic.
func (w *Worker) call(ctx context.Context, h *held) taskReport {
	ended := make(chan taskReport, 1)
	go func() {
		outcome := reportOfError(errors.New("the function ended its goroutine"))
		defer func() {
			if value := recover(); value != nil {
				w.conn.logger.Printf("sagas: %s of %s: panic: %v\n%s", h.Name, h.AttemptID, value, debug.Stack())
				outcome = reportOfError(fmt.Errorf("panic: %v", value))
			}
			ended <- outcome
		}()
		outcome = w.steps[h.Name](ctx, h)
	}()
	return <-ended
}

// words are the steps that this worker performs.
func (w *Worker) words() []string {
	found := make([]string, 0, len(w.steps))
	for word := range w.steps {
		found = append(found, word)
	}
	return found
}
