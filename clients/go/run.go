package sagas

import (
	"context"
	"sort"
	"sync"
	"time"
)

const (
	ahead       = 100 * time.Millisecond // as many tasks are claimed ahead as are done in this time
	mostAhead   = 90
	mostClaim   = 100
	mostReports = 128                    // functions that have ended, and are not reported yet
	look        = 500 * time.Millisecond // between looks at what was claimed ahead; the shortest lease
	late        = 40 * time.Second       // for an answer, beside the time that the service waits
	mostBeat    = 10 * time.Second       // for one heartbeat
	shortReport = time.Second            // the shortest timeout of one attempt of a report
	endPause    = time.Second            // between requests that end a claim
	mostEnd     = 5 * time.Second        // for one of them
	grace       = 5 * time.Second        // for the answer of a claim behind its wait, and for the rest behind the shutdown timeout
)

// run is one call of Worker.Run.
type run struct {
	w        *Worker
	steps    []string
	calls    context.Context    // of functions and heartbeats
	over     context.CancelFunc // ends calls
	reported context.Context    // of reports, and of returns of tasks
	giveUp   context.CancelFunc // ends reported
	claims   context.Context    // of claims
	stopping context.CancelFunc // ends claims
	answers  context.Context    // of the claim that is under way at the stop
	hangUp   context.CancelFunc // ends answers
	grace    time.Duration
	wake     chan struct{}  // something changed for the claimer
	busy     sync.WaitGroup // claims, functions, reports, and returns of tasks

	mu       sync.Mutex
	queue    []*held // claimed, and not begun
	moves    int     // how often the queue changed
	running  map[*call]*held
	outbox   []taskReport  // to be sent
	senders  int           // how many goroutines send them
	reports  int           // in the outbox, or under way
	claiming bool          // a request for tasks is under way
	mean     time.Duration // that a function took lately
	heard    bool          // a claim was answered
	closed   bool          // the shutdown timeout is over
	fault    error
	unknown  map[string]bool // steps of which was said that no definition has them
}

func newRun(w *Worker, ctx context.Context) *run {
	r := &run{
		w: w, steps: w.words(), wake: make(chan struct{}, 1), running: map[*call]*held{},
		mean: ahead, unknown: map[string]bool{}, grace: grace,
	}
	sort.Strings(r.steps)
	r.calls, r.over = context.WithCancel(detached{ctx})
	r.reported, r.giveUp = context.WithCancel(r.calls)
	r.answers, r.hangUp = context.WithCancel(r.calls)
	r.claims, r.stopping = context.WithCancel(ctx)
	return r
}

func (r *run) run() error {
	defer r.over()
	defer r.stopping()
	r.busy.Add(2)
	go r.lookAhead()
	go r.claimTasks()
	<-r.claims.Done()
	// An answer with tasks may be on its way: if it were not read, they would be held until their
	// leases expire.
	defer time.AfterFunc(r.w.wait+r.grace, r.hangUp).Stop()
	over := make(chan struct{})
	go func() {
		r.busy.Wait()
		close(over)
	}()
	if r.w.shutdown > 0 && !endsWithin(r.w.shutdown, over) {
		r.close()
		if !endsWithin(r.grace, over) {
			r.leave()
		}
	}
	<-over
	return r.fault
}

// endsWithin waits for at most a time, and says whether the channel was closed.
func endsWithin(d time.Duration, over <-chan struct{}) bool {
	timer := time.NewTimer(d)
	defer timer.Stop()
	select {
	case <-over:
		return true
	case <-timer.C:
		return false
	}
}

// close cancels running functions, and gives up reports that no service answers for a while.
func (r *run) close() {
	r.hangUp()
	r.mu.Lock()
	r.closed = true
	for call := range r.running {
		call.stop(Closing, true)
	}
	r.mu.Unlock()
	time.AfterFunc(r.grace, r.giveUp)
}

// leave waits no more for functions that go on although their contexts were canceled.
func (r *run) leave() {
	r.mu.Lock()
	left := r.running
	r.running = map[*call]*held{}
	r.mu.Unlock()
	for _, one := range left {
		r.w.conn.logger.Printf("sagas: %s of %s goes on after its context was canceled. Run does not wait for it, and its outcome is not reported", one.Name, one.AttemptID)
		r.busy.Done()
	}
}

// refuse stops the worker, because the service refuses it.
func (r *run) refuse(err error) {
	r.mu.Lock()
	if r.fault == nil {
		r.fault = err
	}
	r.mu.Unlock()
	r.stopping()
}

func (r *run) changed() {
	select {
	case r.wake <- struct{}{}:
	default:
	}
}

// do calls a task's function. Its report is sent by a sender.
func (r *run) do(ctx context.Context, it *call, one *held) {
	beats, end := context.WithCancel(r.calls)
	go r.keepLease(beats, it, one)
	began := time.Now()
	report := r.w.call(ctx, one)
	took := time.Since(began)
	end()
	it.cancel()
	report.AttemptID, report.Lease = one.AttemptID, one.Lease
	r.mu.Lock()
	if r.running[it] == nil { // no caller waits for it
		r.mu.Unlock()
		return
	}
	delete(r.running, it)
	r.mean += (took - r.mean) / 4
	r.moves++
	r.reports++
	r.outbox = append(r.outbox, report)
	sends := r.senders < mostSenders
	if sends {
		r.senders++
	}
	r.mu.Unlock()
	r.begin()
	if sends {
		r.send()
	}
}
