// Contractdriver carries out the commands of the contract suite with this module's client and
// worker. See clients/contract/README.md.
package main

import (
	"bufio"
	"bytes"
	"context"
	"encoding/json"
	"errors"
	"fmt"
	"io"
	"net"
	"net/http"
	"os"
	"strings"
	"sync"
	"time"

	"sagas"
)

// command is a line of the suite.
type command struct {
	ID          int64
	Do          string
	URL         json.RawMessage
	Token       string
	Definition  string
	Key         string
	Input       json.RawMessage
	Labels      map[string]string
	Deadline    *float64
	Version     *int
	Traceparent string
	Timeout     float64
	Note        string
	Step        string
	Result      json.RawMessage
	Error       string
	Undo        bool
	Page        *int
	Phase       string
	Search      string
	Decision    string
	Worker      string
	Steps       []string
	Concurrency int
	Lease       float64
	Wait        *float64
	Quiet       bool
	Act         string
}

type object map[string]any

var (
	writing sync.Mutex
	out     = json.NewEncoder(os.Stdout)
)

// say writes a line.
func say(line object) {
	writing.Lock()
	defer writing.Unlock()
	if err := out.Encode(line); err != nil {
		fmt.Fprintln(os.Stderr, err)
	}
}

// described writes an error as the suite reads it.
func described(err error) any {
	if err == nil {
		return nil
	}
	var problem *sagas.Problem
	if errors.As(err, &problem) {
		return object{"name": problem.Name, "status": problem.Status, "text": problem.Detail}
	}
	name := "Other"
	switch {
	case errors.Is(err, context.DeadlineExceeded):
		name = "Timeout"
	case errors.Is(err, context.Canceled):
		name = "Canceled"
	case errors.Is(err, sagas.ErrUnavailable):
		name = "Unreachable"
	case errors.Is(err, sagas.ErrInvalidArgument):
		name = "InvalidArgument"
	}
	return object{"name": name, "status": 0, "text": err.Error()}
}

// driver has what the commands share.
type driver struct {
	mu     sync.Mutex
	client *sagas.Client
	stream *sagas.EventStream
	ended  chan struct{} // of the stream
	works  map[string]*work
	holds  map[string]chan struct{} // of a saga's step, closed by release
	counts map[string]int           // calls of a saga's step
}

// work is a worker that runs.
type work struct {
	stop context.CancelFunc
	over chan struct{}
	err  error
}

func urls(text json.RawMessage) (first string, more []string, err error) {
	var all []string
	if json.Unmarshal(text, &first) == nil {
		return first, nil, nil
	}
	if err := json.Unmarshal(text, &all); err != nil || len(all) == 0 {
		return "", nil, fmt.Errorf("url: %s", text)
	}
	return all[0], all[1:], nil
}

// do carries out a command.
func (d *driver) do(ctx context.Context, c command) (any, error) {
	d.mu.Lock()
	client := d.client
	d.mu.Unlock()
	options := []sagas.ReportOption{sagas.WithNote(c.Note)}
	if c.Undo {
		options = append(options, sagas.OfCompensation())
	}
	switch c.Do {
	case "open":
		first, more, err := urls(c.URL)
		if err != nil {
			return nil, err
		}
		client, err := sagas.NewClient(first, sagas.WithServices(more...), sagas.WithToken(c.Token))
		d.mu.Lock()
		d.client = client
		d.mu.Unlock()
		return object{"language": "go"}, err
	case "start":
		return d.start(ctx, client, c)
	case "get":
		return shown(client.Get(ctx, c.Key))
	case "wait":
		ctx, cancel := context.WithTimeout(ctx, seconds(c.Timeout))
		defer cancel()
		return shown(client.Wait(ctx, c.Key))
	case "abort":
		aborted, err := client.Abort(ctx, c.Key, c.Note)
		return object{"aborted": aborted}, err
	case "complete":
		return object{}, client.Complete(ctx, c.Key, c.Step, c.Result, options...)
	case "fail":
		return object{}, client.Fail(ctx, c.Key, c.Step, c.Error, options...)
	case "list":
		keys, versions, page := []string{}, []int{}, 0
		if c.Page != nil {
			if page = *c.Page; page == 0 {
				page = -1 // in Go, 0 means the default
			}
		}
		list := client.List(ctx, sagas.Filter{
			Page: page, Phase: sagas.Phase(c.Phase), Definition: c.Definition, Search: c.Search, Labels: c.Labels,
		})
		for list.Next() {
			keys, versions = append(keys, list.Saga().Key), append(versions, list.Saga().Version)
		}
		return object{"keys": keys, "versions": versions}, list.Err()
	case "decisions":
		return decisions(ctx, client, c)
	case "events":
		return d.events(ctx, client, c)
	case "events_stop":
		d.mu.Lock()
		stream, ended := d.stream, d.ended
		d.mu.Unlock()
		if stream == nil {
			return nil, errors.New("no stream is open")
		}
		stream.Close()
		<-ended
		return object{}, nil
	case "worker":
		return object{}, d.work(ctx, c)
	case "stop":
		d.mu.Lock()
		it := d.works[c.Worker]
		delete(d.works, c.Worker)
		d.mu.Unlock()
		if it == nil {
			return nil, fmt.Errorf("no worker %q", c.Worker)
		}
		it.stop()
		<-it.over
		return object{}, it.err
	case "release":
		d.release(c.Key, c.Step)
		return object{}, nil
	}
	return nil, fmt.Errorf("unknown command %q", c.Do)
}

func (d *driver) start(ctx context.Context, client *sagas.Client, c command) (any, error) {
	var options []sagas.StartOption
	if c.Labels != nil {
		options = append(options, sagas.WithLabels(c.Labels))
	}
	if c.Deadline != nil {
		options = append(options, sagas.WithDeadline(seconds(*c.Deadline)))
	}
	if c.Version != nil {
		options = append(options, sagas.WithVersion(*c.Version))
	}
	if c.Traceparent != "" {
		options = append(options, sagas.WithTraceparent(c.Traceparent))
	}
	if c.Input == nil {
		c.Input = json.RawMessage("null")
	}
	found, err := sagas.Start(ctx, client, c.Definition, c.Key, c.Input, options...)
	return object{"key": found.Key, "version": found.Version, "new": found.New}, err
}

func (d *driver) events(ctx context.Context, client *sagas.Client, c command) (any, error) {
	stream, err := client.Events(ctx, sagas.EventFilter{Key: c.Key, Definition: c.Definition})
	if err != nil {
		return nil, err
	}
	ended := make(chan struct{})
	d.mu.Lock()
	d.stream, d.ended = stream, ended
	d.mu.Unlock()
	go func() {
		defer close(ended)
		for stream.Next() {
			event := stream.Event()
			if event.Name == sagas.Missed {
				say(object{"note": "missed"})
				continue
			}
			say(object{"note": "event", "event": event.Data})
		}
		if err := stream.Err(); err != nil {
			say(object{"note": "events_ended", "error": described(err)})
		}
	}()
	return object{}, nil
}

// decisions lists decisions as the service has them; in Go, a missing text is an empty one.
func decisions(ctx context.Context, client *sagas.Client, c command) (any, error) {
	filter, all := sagas.DecisionFilter{Key: c.Key, Definition: c.Definition, Decision: c.Decision}, []object{}
	if c.Page != nil {
		filter.Page = *c.Page
	}
	list := client.Decisions(ctx, filter)
	for list.Next() {
		entry := list.Decision()
		some := []object{}
		for _, saga := range entry.Sagas {
			some = append(some, object{
				"key": saga.Key, "definition": saga.Definition, "step": orNull(saga.Step), "undo": saga.Undo, "answer": saga.Answer,
			})
		}
		all = append(all, object{
			"number": entry.Number, "decision": entry.Decision, "at": !entry.At.IsZero(), "by": orNull(entry.By), "via": entry.Via,
			"note": orNull(entry.Note), "bulk": entry.Bulk, "subject": orNull(entry.Subject), "sagas": some,
		})
	}
	return object{"decisions": all}, list.Err()
}

func orNull(text string) any {
	if text == "" {
		return nil
	}
	return text
}

func seconds(number float64) time.Duration {
	return time.Duration(number * float64(time.Second))
}

func shown(saga *sagas.Saga, err error) (any, error) {
	if err != nil {
		return nil, err
	}
	return object{
		"key": saga.Key, "definition": saga.Definition, "version": saga.Version, "phase": saga.Phase,
		"over": saga.Over, "aborted": saga.Aborted, "input": saga.Input, "states": saga.States, "results": saga.Results, "errors": saga.Errors,
	}, nil
}

// work starts a worker.
func (d *driver) work(ctx context.Context, c command) error {
	first, more, err := urls(c.URL)
	if err != nil {
		return err
	}
	options := []sagas.WorkerOption{sagas.WithServices(more...), sagas.WithToken(c.Token), sagas.WithName(c.Worker)}
	if c.Concurrency > 0 {
		options = append(options, sagas.WithConcurrency(c.Concurrency))
	}
	if c.Lease > 0 {
		options = append(options, sagas.WithLease(seconds(c.Lease)))
	}
	if c.Wait != nil {
		options = append(options, sagas.WithWait(seconds(*c.Wait)))
	}
	worker, err := sagas.NewWorker(first, options...)
	if err != nil {
		return err
	}
	for _, word := range c.Steps {
		saga, step, _ := strings.Cut(word, "/")
		if strings.HasSuffix(step, "/undo") {
			step = strings.TrimSuffix(step, "/undo")
			sagas.Compensation(worker, saga, step, func(ctx context.Context, task sagas.CompensationTask[json.RawMessage, json.RawMessage]) error {
				if c.Act != "" {
					_, err := act(c.Act, task.Task, true, task.Result, task.OriginalIdempotencyKey)
					return err
				}
				_, err := d.perform(ctx, c, task.Task, true, task.Result)
				return err
			})
		} else {
			sagas.Step(worker, saga, step, func(ctx context.Context, task sagas.Task[json.RawMessage]) (any, error) {
				if c.Act != "" {
					return act(c.Act, task, false, nil, "")
				}
				return d.perform(ctx, c, task, false, nil)
			})
		}
	}
	ctx, stop := context.WithCancel(ctx)
	it := &work{stop: stop, over: make(chan struct{})}
	d.mu.Lock()
	d.works[c.Worker] = it
	d.mu.Unlock()
	go func() {
		it.err = worker.Run(ctx)
		if ctx.Err() == nil {
			say(object{"note": "worker_ended", "worker": c.Worker, "error": described(it.err)})
		}
		close(it.over)
	}()
	return nil
}

// script is what an input says.
type script struct {
	Script map[string][]string
	Value  json.RawMessage
}

// traced writes no trace context as null.
func traced(traceparent string) any {
	if traceparent == "" {
		return nil
	}
	return traceparent
}

// perform does the next word of a saga's script.
func (d *driver) perform(ctx context.Context, c command, task sagas.Task[json.RawMessage], undo bool, result json.RawMessage) (any, error) {
	suffix := ""
	if undo {
		suffix = "/undo"
	}
	if !c.Quiet {
		var index, itemKey any
		item, _ := sagas.Item[any](task)
		given, _ := sagas.Given[any](task)
		if task.Index >= 0 {
			index = task.Index
		}
		if task.ItemKey != "" {
			itemKey = task.ItemKey
		}
		say(object{
			"declared_step": task.DeclaredStep, "index": index, "item_key": itemKey, "item": item, "given": given,
			"note": "called", "worker": c.Worker, "name": task.Saga + "/" + task.DeclaredStep + suffix, "key": task.Key,
			"step": task.Step, "undo": undo, "attempt": task.Attempt, "idempotency_key": task.IdempotencyKey,
			"results": task.Results(), "result": result, "traceparent": traced(task.Traceparent),
		})
	}
	var said script
	if bytes.HasPrefix(bytes.TrimSpace(task.Input), []byte("{")) {
		_ = json.Unmarshal(task.Input, &said)
	}
	value := task.Input
	if said.Script != nil {
		if value = said.Value; value == nil {
			value = json.RawMessage("null")
		}
	}
	word := d.word(said, task.Key, task.Step+suffix)
	done := object{"done": task.Step + suffix}
	switch word {
	case "ok":
		return done, nil
	case "echo":
		return value, nil
	case "nothing":
		return nil, nil
	case "fail":
		return nil, sagas.Fail("no")
	case "retry":
		return nil, sagas.Retry("not yet")
	case "unknown":
		return nil, sagas.Unknown("who knows")
	case "throw":
		return nil, errors.New("a bug")
	case "panic":
		panic("a bug")
	case "timeout":
		ctx, cancel := context.WithTimeout(ctx, 10*time.Millisecond)
		defer cancel()
		<-ctx.Done()
		return nil, ctx.Err()
	case "refused":
		_, err := http.Get("http://127.0.0.1:9/")
		var refused *net.OpError
		if !errors.As(err, &refused) {
			return nil, sagas.Fail("it was not refused")
		}
		return nil, err
	case "hold", "deaf", "doubt":
		gone := ctx.Done()
		if word == "deaf" {
			gone = nil
		}
		select {
		case <-d.hold(task.Key, task.Step+suffix):
			return done, nil
		case <-gone:
		}
		why := map[sagas.StopReason]string{sagas.Aborted: "abort", sagas.Lost: "lease"}[sagas.Stopped(ctx)]
		say(object{"note": "canceled", "worker": c.Worker, "key": task.Key, "step": task.Step, "why": why})
		if word == "doubt" {
			return nil, sagas.Unknown("who knows")
		}
		return nil, sagas.Fail("no")
	case "big":
		return object{"text": strings.Repeat("x", 1000000)}, nil
	case "huge":
		return object{"text": strings.Repeat("x", 3000000)}, nil
	}
	return nil, sagas.Fail("unknown word %q", word)
}

// act does what a program behind a socket says.
func act(path string, task sagas.Task[json.RawMessage], undo bool, result json.RawMessage, original string) (any, error) {
	link, err := net.Dial("unix", path)
	if err != nil {
		return nil, err
	}
	defer link.Close()
	asked := object{
		"saga": task.Saga, "key": task.Key, "step": task.Step, "undo": undo, "attempt": task.Attempt, "attempt_id": task.AttemptID,
		"idempotency_key": task.IdempotencyKey, "original_idempotency_key": nil, "input": task.Input, "results": task.Results(), "result": result,
	}
	if undo {
		asked["original_idempotency_key"] = original
	}
	if err := json.NewEncoder(link).Encode(asked); err != nil {
		return nil, err
	}
	var command struct {
		Do    string
		Value json.RawMessage
	}
	if err := json.NewDecoder(link).Decode(&command); err != nil {
		return nil, err
	}
	switch command.Do {
	case "ok":
		if command.Value == nil {
			return nil, nil
		}
		return command.Value, nil
	case "fail":
		return nil, sagas.Fail("no")
	case "retry":
		return nil, sagas.Retry("not yet")
	}
	return nil, sagas.Unknown("who knows")
}

// word is what the next call of a saga's step does.
func (d *driver) word(said script, key, name string) string {
	d.mu.Lock()
	defer d.mu.Unlock()
	at := d.counts[key+"\n"+name]
	d.counts[key+"\n"+name]++
	words := said.Script[name]
	switch {
	case said.Script == nil:
		return "echo"
	case len(words) == 0:
		return "ok"
	case at < len(words):
		return words[at]
	}
	return words[len(words)-1]
}

// hold is closed by the release of a saga's step.
func (d *driver) hold(key, step string) chan struct{} {
	d.mu.Lock()
	defer d.mu.Unlock()
	name := key + "\n" + step
	if d.holds[name] == nil {
		d.holds[name] = make(chan struct{})
	}
	return d.holds[name]
}

func (d *driver) release(key, step string) {
	held := d.hold(key, step)
	d.mu.Lock()
	defer d.mu.Unlock()
	select {
	case <-held:
	default:
		close(held)
	}
}

func main() {
	out.SetEscapeHTML(false)
	d := &driver{works: map[string]*work{}, holds: map[string]chan struct{}{}, counts: map[string]int{}}
	ctx, cancel := context.WithCancel(context.Background())
	defer cancel()
	lines := bufio.NewReader(os.Stdin)
	for {
		line, err := lines.ReadBytes('\n')
		if err == io.EOF {
			return
		}
		var c command
		if err == nil {
			err = json.Unmarshal(line, &c)
		}
		if err != nil {
			fmt.Fprintln(os.Stderr, err)
			os.Exit(1)
		}
		if c.Do == "end" {
			say(object{"id": c.ID, "value": object{}})
			return
		}
		if c.Do == "open" {
			d.answer(ctx, c)
			continue
		}
		go d.answer(ctx, c)
	}
}

func (d *driver) answer(ctx context.Context, c command) {
	value, err := d.do(ctx, c)
	if err != nil {
		say(object{"id": c.ID, "error": described(err)})
		return
	}
	say(object{"id": c.ID, "value": value})
}
