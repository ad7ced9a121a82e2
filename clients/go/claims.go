package sagas

import (
	"context"
	"encoding/json"
	"errors"
	"time"
)

// claim asks for tasks.
type claim struct {
	Steps  []string `json:"steps"`
	Limit  int      `json:"limit"`
	Wait   float64  `json:"wait"`
	Lease  float64  `json:"lease"`
	Worker string   `json:"worker"`
}

type claimed struct {
	Tasks   []leased `json:"tasks"`
	Unknown []string `json:"unknown_steps"`
}

// wanted is how many tasks to ask for: those that could begin now, and a few ahead while functions
// are short. Under the lock.
func (r *run) wanted() int {
	some := r.free() + r.ahead() - len(r.queue)
	return least(some, mostClaim)
}

func (r *run) free() int { return r.w.concurrency - len(r.running) }

func (r *run) ahead() int {
	if r.mean >= ahead {
		return 0
	}
	each := r.mean
	if each < time.Millisecond {
		each = time.Millisecond
	}
	return least(mostAhead, int(ahead/each)*r.w.concurrency)
}

func (r *run) claimOf(limit int, wait time.Duration) *claim {
	return &claim{Steps: r.steps, Limit: limit, Wait: wait.Seconds(), Lease: r.w.lease.Seconds(), Worker: r.w.name}
}

// next is what to claim with a report. Whoever gets it tells claimedNext.
func (r *run) next() *claim {
	r.mu.Lock()
	defer r.mu.Unlock()
	limit := r.wanted()
	if r.claiming || r.claims.Err() != nil || limit < 1 || len(r.queue) > limit/2 {
		return nil
	}
	r.claiming = true
	return r.claimOf(limit, 0)
}

func (r *run) claimedNext(found *claimed) {
	r.mu.Lock()
	r.claiming = false
	r.mu.Unlock()
	if found != nil {
		r.add(*found)
	}
	if r.claims.Err() != nil {
		r.giveBack() // they came behind the stop
	}
	r.changed()
}

// claimTasks waits at the service while there is nothing to do, until the worker is stopped. It
// returns what the last answer brings.
func (r *run) claimTasks() {
	defer r.busy.Done()
	defer r.giveBack()
	for r.claims.Err() == nil {
		limit, wait := r.idle()
		if limit == 0 {
			select {
			case <-r.wake:
			case <-r.claims.Done():
			}
			continue
		}
		body, _ := json.Marshal(r.claimOf(limit, wait))
		asked := request{method: "POST", path: "/v1/tasks/claim", body: body, wait: wait, timeout: wait + late}
		answer, err := r.w.conn.repeat(r.claims, asked, r.waitFor)
		var found claimed
		if err == nil {
			err = json.Unmarshal(answer, &found)
		}
		r.mu.Lock()
		r.claiming, r.heard = false, r.heard || err == nil
		r.mu.Unlock()
		if err != nil {
			if r.claims.Err() == nil {
				r.refuse(err)
			}
			return
		}
		r.add(found)
	}
}

// waitFor sends a claim to a service. If the worker is stopped while it waits there, the service is
// asked to end it.
func (r *run) waitFor(service string, asked request) ([]byte, time.Duration, error) {
	if asked.wait > 0 {
		unanswered, answered := context.WithCancel(r.answers)
		defer answered()
		r.busy.Add(1)
		go r.endAtStop(unanswered, service)
	}
	return r.w.conn.ask(r.answers, service, asked)
}

// endAtStop asks a service, once the worker is stopped, to end the claims of this worker's name that
// wait there. It repeats that until the context ends, because the claim may not have arrived yet, or
// a balancer may lead the request to a service that does not have it. An older service refuses it.
func (r *run) endAtStop(ctx context.Context, service string) {
	defer r.busy.Done()
	select {
	case <-ctx.Done():
		return
	case <-r.claims.Done():
	}
	body, _ := json.Marshal(struct {
		Worker string `json:"worker"`
	}{r.w.name})
	asked := request{method: "POST", path: "/v1/tasks/claim/end", body: body, timeout: mostEnd}
	for {
		_, _, err := r.w.conn.ask(ctx, service, asked)
		var problem *Problem
		if errors.As(err, &problem) && !repeats(problem.Status) || !sleep(ctx, endPause) {
			return
		}
	}
}

// idle is how many tasks to wait for; 0 if there is something to do, or a report claims already.
func (r *run) idle() (int, time.Duration) {
	r.mu.Lock()
	defer r.mu.Unlock()
	if r.claiming || len(r.queue) > 0 || r.free() < 1 || r.reports >= mostReports {
		return 0, 0
	}
	r.claiming = true
	wait := r.w.wait
	if !r.heard {
		wait = 0 // the first answer comes at once: it says which steps are unknown there
	}
	return least(r.w.concurrency+r.ahead(), least(mostClaim, r.free()+r.ahead())), wait
}

// add takes the tasks of an answer, and begins what can begin.
func (r *run) add(found claimed) {
	now := time.Now()
	r.mu.Lock()
	for _, one := range found.Tasks {
		if r.w.steps[one.Name] == nil {
			continue // it was not requested
		}
		begin := now.Add(time.Duration(one.Seconds / 2 * float64(time.Second)))
		r.queue = append(r.queue, &held{leased: one, claimed: now, begin: begin})
		r.moves++
	}
	var news []string
	for _, step := range found.Unknown {
		if !r.unknown[step] {
			r.unknown[step] = true
			news = append(news, step)
		}
	}
	r.mu.Unlock()
	for _, step := range news {
		r.w.conn.logger.Printf("sagas: no definition of the service has the step %s. Check its name, or add the definition", step)
	}
	r.begin()
}

// begin calls the functions of tasks that can begin.
func (r *run) begin() {
	r.mu.Lock()
	defer r.mu.Unlock()
	for len(r.queue) > 0 && r.free() > 0 && r.reports < mostReports && r.claims.Err() == nil {
		one := r.queue[0]
		r.queue = r.queue[1:]
		r.moves++
		if time.Now().After(one.begin) {
			continue // it is another's, or soon will be
		}
		r.busy.Add(1)
		ctx, cancel := context.WithCancel(r.calls)
		it := &call{cancel: cancel, reason: one.Cancelled}
		r.running[it] = one
		go r.do(context.WithValue(ctx, callKey{}, it), it, one)
	}
}

// lookAhead returns tasks that were claimed ahead, and did not begin for a while, or before the stop.
func (r *run) lookAhead() {
	defer r.busy.Done()
	defer r.giveBack()
	ticker := time.NewTicker(look)
	defer ticker.Stop()
	seen := -1
	for {
		select {
		case <-r.claims.Done():
			return
		case <-ticker.C:
		}
		r.mu.Lock()
		still, moves := len(r.queue) > 0 && r.moves == seen, r.moves
		if still && r.mean < look {
			r.mean = look
		}
		r.mu.Unlock()
		if still {
			r.giveBack()
		}
		seen = moves
	}
}

// giveBack cuts the leases of tasks that did not begin. If the service does not hear of that, they
// expire.
func (r *run) giveBack() {
	r.mu.Lock()
	back := r.queue
	r.queue = nil
	r.busy.Add(len(back))
	r.mu.Unlock()
	for _, one := range back {
		go func(one *held) {
			defer r.busy.Done()
			within, end := r.within()
			defer end()
			if _, answered := r.beat(within, one, look); !answered {
				r.beat(within, one, look) // to the next service, or over a connection that is open
			}
		}(one)
	}
	r.changed()
}
