package sagas

import (
	"context"
	"encoding/json"
	"errors"
	"time"
)

const (
	mostSenders = 4
	mostBatch   = 100
	mostBytes   = 256 << 10 // of the reports of one request, except that of a single one
)

// send sends reports until the outbox is empty: as many at once as have come meanwhile.
func (r *run) send() {
	for {
		batch := r.batch()
		if len(batch) == 0 {
			return
		}
		r.deliver(batch)
		r.mu.Lock()
		r.reports -= len(batch)
		r.mu.Unlock()
		r.busy.Add(-len(batch))
		r.begin()
		r.changed()
	}
}

// batch takes reports out of the outbox. If there are none, this sender ends.
func (r *run) batch() []taskReport {
	r.mu.Lock()
	defer r.mu.Unlock()
	count, bytes := 0, 0
	for count < len(r.outbox) && count < mostBatch {
		if bytes += r.outbox[count].size(); count > 0 && bytes > mostBytes {
			break
		}
		count++
	}
	if count == 0 {
		r.senders--
		return nil
	}
	batch := r.outbox[:count:count]
	r.outbox = r.outbox[count:]
	return batch
}

// within is the context of a report, or of a return: it ends some time behind the shutdown timeout.
func (r *run) within() (context.Context, context.CancelFunc) {
	r.mu.Lock()
	defer r.mu.Unlock()
	if r.closed {
		return context.WithTimeout(r.calls, r.grace)
	}
	return r.reported, func() {}
}

// reportTimeout is for one attempt of a report: if one service does not answer, another one gets
// the outcome within the lease. An attempt that takes it leaves more to the next one, so that a slow
// upload gets through in the end.
func (r *run) reportTimeout() time.Duration {
	if third := r.w.lease / heartbeats; third > shortReport {
		return shortest(late, third)
	}
	return shortReport
}

// deliver repeats reports until each is answered.
func (r *run) deliver(batch []taskReport) {
	within, end := r.within()
	defer end()
	next := r.next()
	asked := next != nil
	var found *claimed
	pause := firstPause
	for len(batch) > 1 {
		left, claimed, err := r.together(within, batch, next)
		if claimed != nil {
			found, next = claimed, nil
		}
		var problem *Problem
		if errors.As(err, &problem) && isFinal(problem) {
			if problem.Status == 403 && next != nil {
				next = nil // no more tasks may be claimed with them
				continue
			}
			r.refuse(err)
			batch = nil
			break
		}
		if batch = left; err != nil || len(batch) == 0 {
			break
		}
		sleep(within, pause)
		if pause *= 2; pause > mostPause {
			pause = mostPause
		}
	}
	for _, one := range batch { // a single one, and those whose batch was refused
		if claimed := r.alone(within, one, next); claimed != nil {
			found, next = claimed, nil
		}
	}
	if asked {
		r.claimedNext(found)
	}
}

// together reports several tasks at once. It returns those that are to be repeated.
func (r *run) together(ctx context.Context, batch []taskReport, next *claim) ([]taskReport, *claimed, error) {
	body, _ := json.Marshal(struct {
		Reports []taskReport `json:"reports"`
		Next    *claim       `json:"next,omitempty"`
	}{batch, next})
	answer, err := r.w.conn.until(ctx, request{method: "POST", path: "/v1/tasks/report", body: body, timeout: r.reportTimeout(), most: late})
	if err != nil {
		return batch, nil, err
	}
	var reply struct {
		Reports []struct {
			Kept    bool
			Problem *document
		}
		Next *claimed
	}
	if err := json.Unmarshal(answer, &reply); err != nil || len(reply.Reports) != len(batch) {
		return batch, nil, errors.New("sagas: the answer to reports is not of its form")
	}
	var left []taskReport
	for place, one := range reply.Reports {
		if one.Kept || one.Problem == nil {
			continue
		}
		problem := one.Problem.problem()
		if repeats(problem.Status) {
			left = append(left, batch[place])
		} else if again, ok := r.refused(batch[place], problem); ok {
			left = append(left, again)
		}
	}
	return left, reply.Next, nil
}

// alone reports one task.
func (r *run) alone(ctx context.Context, one taskReport, next *claim) *claimed {
	path := "/v1/tasks/" + escaped(one.AttemptID) + "/" + string(one.Outcome)
	for {
		bare := one
		bare.AttemptID, bare.Outcome = "", ""
		body, _ := json.Marshal(struct {
			taskReport
			Next *claim `json:"next,omitempty"`
		}{bare, next})
		answer, err := r.w.conn.until(ctx, request{method: "POST", path: path, body: body, timeout: r.reportTimeout(), most: late})
		if err == nil {
			var kept struct{ Next *claimed }
			if err := json.Unmarshal(answer, &kept); err != nil {
				return nil
			}
			return kept.Next
		}
		var problem *Problem
		if !errors.As(err, &problem) {
			r.w.conn.logger.Printf("sagas: %s: the report %q was given up: %v", one.AttemptID, one.Outcome, err)
			return nil
		}
		if next != nil && isFinal(problem) && problem.Status == 403 {
			next = nil // no more tasks may be claimed with it
			continue
		}
		again, ok := r.refused(one, problem)
		if !ok {
			return nil
		}
		one = again
	}
}

// refused says what a report comes to that the service refuses: a report to send instead, or none.
func (r *run) refused(one taskReport, problem *Problem) (taskReport, bool) {
	switch {
	case isUnstorable(problem) && one.Result != nil && !one.replaced:
		r.w.conn.logger.Printf("sagas: %s: the result was refused: %v", one.AttemptID, problem)
		one.Result, one.replaced = unstorable(problem.Detail).Result, true
		return one, true
	case isFinal(problem):
		r.refuse(problem)
	default:
		r.w.conn.logger.Printf("sagas: %s: the report %q was not kept: %v", one.AttemptID, one.Outcome, problem)
	}
	return one, false
}

// isFinal says whether the worker is refused, and not what it says of one task.
func isFinal(problem *Problem) bool {
	return (problem.Status == 401 || problem.Status == 403) && problem.Name != string(ErrInvalidLease)
}

// isUnstorable says whether a result cannot be stored as it is.
func isUnstorable(problem *Problem) bool { return problem.Status == 413 || problem.Status == 422 }
