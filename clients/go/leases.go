package sagas

import (
	"context"
	"encoding/json"
	"errors"
	"time"
)

// keepLease renews the lease of a running function. If a heartbeat is not answered, the next service
// gets one soon, so that the lease outlasts it.
func (r *run) keepLease(ctx context.Context, it *call, one *held) {
	each, pause := r.w.lease/heartbeats, firstPause
	next := one.claimed.Add(each)
	for sleep(ctx, time.Until(next)) {
		began := time.Now()
		reason, answered := r.beat(ctx, one, r.w.lease)
		if !answered {
			next = time.Now().Add(pause)
			pause = shortest(2*pause, each)
			continue
		}
		next, pause = began.Add(each), firstPause
		switch reason {
		case NotStopped:
		case Lost:
			it.stop(Lost, true)
			return
		default: // an abort cancels an attempt once
			it.stop(reason, reason == Aborted && one.Cancelled != Aborted)
		}
	}
}

// beat sends one heartbeat, with the progress. It returns why the function should stop, and whether
// a service answered.
func (r *run) beat(ctx context.Context, one *held, lease time.Duration) (StopReason, bool) {
	asked := struct {
		Lease    string   `json:"lease"`
		Seconds  float64  `json:"seconds"`
		Progress *float64 `json:"progress,omitempty"`
		Detail   *string  `json:"detail,omitempty"`
	}{Lease: one.Lease, Seconds: lease.Seconds()}
	news := one.progress.Load()
	if news != nil && news != one.sent {
		asked.Progress, asked.Detail = &news.fraction, &news.detail
	}
	body, _ := json.Marshal(asked)
	service := r.w.conn.url()
	answer, _, err := r.w.conn.ask(ctx, service, request{method: "POST", path: "/v1/tasks/" + escaped(one.AttemptID) + "/heartbeat", body: body, timeout: shortest(mostBeat, r.w.lease/heartbeats/2)})
	var problem *Problem
	switch {
	case err == nil:
		one.sent = news
		var held struct{ Cancelled StopReason }
		if json.Unmarshal(answer, &held) == nil {
			return held.Cancelled, true
		}
	case ctx.Err() != nil: // the function has ended
	case errors.As(err, &problem) && !repeats(problem.Status):
		r.w.conn.logger.Printf("sagas: %s: %v", one.AttemptID, err)
		if problem.Status == 404 || problem.Status == 409 || problem.Name == string(ErrInvalidLease) {
			return Lost, true
		}
	default:
		r.w.conn.turnFrom(service)
		return NotStopped, false
	}
	return NotStopped, true
}
