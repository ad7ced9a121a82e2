package sagas

import (
	"bufio"
	"context"
	"encoding/json"
	"errors"
	"fmt"
	"log"
	"math"
	"net"
	"net/http"
	"net/http/httptest"
	"runtime"
	"strings"
	"testing"
	"time"
)

func TestErrorsHaveNamesAndKinds(t *testing.T) {
	body := []byte(`{"type": "urn:sagas:problem:KeyConflict", "title": "t", "status": 409, "detail": "d", "field": "key"}`)
	var err error = fmt.Errorf("order-1: %w", problemOf(409, body))
	for _, target := range []error{ErrKeyConflict, ErrConflict} {
		if !errors.Is(err, target) {
			t.Errorf("it is not %v", target)
		}
	}
	for _, target := range []error{ErrNoSuchSaga, ErrNotFound, ErrUnavailable, ErrInvalidArgument} {
		if errors.Is(err, target) {
			t.Errorf("it is %v", target)
		}
	}
	var problem *Problem
	if !errors.As(err, &problem) || problem.Field != "key" || problem.Detail != "d" || problem.Error() != "sagas: 409 KeyConflict: d" {
		t.Error(problem)
	}
	for status, kind := range map[int]ErrorKind{
		400: ErrInvalid, 401: ErrDenied, 403: ErrDenied, 404: ErrNotFound, 408: ErrUnavailable, 413: ErrInvalid, 429: ErrUnavailable,
		502: ErrUnavailable,
	} {
		proxy := problemOf(status, []byte("<html>\xff"))
		if !errors.Is(proxy, kind) || proxy.Name != "" || !strings.Contains(proxy.Error(), "<html>") {
			t.Error(status, proxy)
		}
	}
}

func TestNoServiceAnswers(t *testing.T) {
	var said strings.Builder
	client, err := NewClient("http://127.0.0.1:1", WithTimeout(time.Millisecond), WithLogger(log.New(&said, "", 0)))
	if err != nil {
		t.Fatal(err)
	}
	_, err = Start(context.Background(), client, "trip", "k", 1)
	if !errors.Is(err, ErrUnavailable) || errors.Is(err, context.DeadlineExceeded) {
		t.Error(err)
	}
	ctx, cancel := context.WithCancel(context.Background())
	cancel()
	for _, err := range []error{func() error { _, err := client.Get(ctx, "k"); return err }(), func() error { _, err := client.Wait(ctx, "k"); return err }()} {
		if !errors.Is(err, context.Canceled) {
			t.Error(err)
		}
	}
	if _, err = client.Events(ctx, EventFilter{}); !errors.Is(err, ErrUnavailable) || !errors.Is(err, context.Canceled) {
		t.Error(err)
	}
	worker, _ := NewWorker("http://127.0.0.1:1", WithLogger(log.New(&said, "", 0)))
	Step(worker, "trip", "car", func(context.Context, Task[any]) (any, error) { return nil, nil })
	if err := worker.Run(ctx); err != nil {
		t.Error(err)
	}
}

// A service may keep a wait for longer than the client's timeout, which is for services that do not answer.
func TestWaitGoesOn(t *testing.T) {
	asked := 0
	service := httptest.NewServer(http.HandlerFunc(func(w http.ResponseWriter, r *http.Request) {
		asked++
		time.Sleep(300 * time.Millisecond) // its wait
		fmt.Fprintf(w, `{"key": "k", "over": %v}`, asked > 1)
	}))
	defer service.Close()
	client, _ := NewClient(service.URL, WithTimeout(100*time.Millisecond))
	if saga, err := client.Wait(context.Background(), "k"); err != nil || !saga.Over || asked != 2 {
		t.Error(saga, err, asked)
	}
}

// A service that stands still takes connections, and answers nothing.
func TestNextServiceIsAsked(t *testing.T) {
	still, err := net.Listen("tcp", "127.0.0.1:0")
	if err != nil {
		t.Fatal(err)
	}
	defer still.Close()
	service := httptest.NewServer(http.HandlerFunc(func(w http.ResponseWriter, r *http.Request) {
		fmt.Fprint(w, `{"key": "k"}`)
	}))
	defer service.Close()
	client, _ := NewClient("http://app:s3cret@"+still.Addr().String(), WithServices(service.URL), WithTimeout(100*time.Millisecond))
	client.conn.first = 0
	if _, err := client.Get(context.Background(), "k"); !errors.Is(err, ErrUnavailable) {
		t.Error(err)
	}
	if saga, err := client.Get(context.Background(), "k"); err != nil || saga.Key != "k" {
		t.Error(saga, err)
	}
}

func TestArguments(t *testing.T) {
	ctx := context.Background()
	client, _ := NewClient("http://127.0.0.1:1", WithTimeout(time.Millisecond))
	undo := func(context.Context, CompensationTask[any, any]) error { return nil }
	step := func(context.Context, Task[any]) (any, error) { return nil, nil }
	run := func(declare func(*Worker)) error {
		worker, err := NewWorker("http://127.0.0.1:1")
		if err == nil {
			declare(worker)
			err = worker.Run(ctx)
		}
		return err
	}
	for name, call := range map[string]func() error{
		"address":    func() error { _, err := NewClient("127.0.0.1:8080"); return err },
		"services":   func() error { _, err := NewClient("http://a", WithServices("ftp://b")); return err },
		"token":      func() error { _, err := NewClient("http://a", WithToken("a\n")); return err },
		"characters": func() error { _, err := NewClient("http://a", WithToken("\ufeffa")); return err },
		"key":        func() error { _, err := client.Get(ctx, ""); return err },
		"input":      func() error { _, err := Start(ctx, client, "a", "k", math.NaN()); return err },
		"page":       func() error { list := client.List(ctx, Filter{Page: 1001}); list.Next(); return list.Err() },
		"after":      func() error { _, err := client.Events(ctx, EventFilter{After: "a\n"}); return err },
		"lease":      func() error { _, err := NewWorker("http://a", WithLease(time.Millisecond)); return err },
		"wait":       func() error { _, err := NewWorker("http://a", WithWait(time.Minute)); return err },
		"functions":  func() error { _, err := NewWorker("http://a", WithConcurrency(0)); return err },
		"no steps":   func() error { return run(func(*Worker) {}) },
		"nil":        func() error { return run(func(w *Worker) { Compensation[any, any](w, "a", "b", nil) }) },
		"step twice": func() error { return run(func(w *Worker) { Step(w, "a", "b", step); Step(w, "a", "b", step) }) },
		"undo twice": func() error {
			return run(func(w *Worker) { Compensation(w, "a", "b", undo); Compensation(w, "a", "b", undo) })
		},
	} {
		if err := call(); !errors.Is(err, ErrInvalidArgument) {
			t.Errorf("%s: %v", name, err)
		}
	}
}

func TestValues(t *testing.T) {
	saga := &Saga{Input: json.RawMessage(`9007199254740993`), Results: map[string]json.RawMessage{"car": json.RawMessage(`{"id": "secret"}`)}}
	if value, err := Input[any](saga); err != nil || value != json.Number("9007199254740993") {
		t.Error(value, err)
	}
	if value, err := Input[int64](saga); err != nil || value != 9007199254740993 {
		t.Error(value, err)
	}
	if value, err := Result[json.RawMessage](saga, "car"); err != nil || string(value) != `{"id": "secret"}` {
		t.Error(string(value), err)
	}
	if _, err := Result[any](saga, "hotel"); !errors.Is(err, ErrNoResult) {
		t.Error(err)
	}
	saga.Results["mail"] = json.RawMessage(`{"$failed": "smtp"}`)
	if _, err := Result[struct{ ID int }](saga, "mail"); !errors.Is(err, ErrStepFailed) || !strings.HasSuffix(err.Error(), "mail: smtp") {
		t.Error(err)
	}
	_, err := Result[struct{ ID int }](saga, "car")
	if err == nil || strings.Contains(err.Error(), "secret") || !strings.Contains(err.Error(), "ID must be int") {
		t.Error(err)
	}
	if _, err = Input[bool](saga); err == nil || strings.Contains(err.Error(), "9007199254740993") {
		t.Error(err)
	}
}

func TestOutcomes(t *testing.T) {
	worker, _ := NewWorker("http://127.0.0.1:1", WithLogger(log.New(&strings.Builder{}, "", 0)))
	cause := errors.New("full")
	calls := map[string]func() (any, error){
		`{"lease":"","outcome":"complete","result":7}`:                                             func() (any, error) { return 7, nil },
		`{"lease":"","outcome":"complete","result":null}`:                                          func() (any, error) { return nil, nil },
		`{"lease":"","outcome":"fail","error":"no: full","final":true}`:                            func() (any, error) { return 7, Fail("no: %w", cause) },
		`{"lease":"","outcome":"fail","error":"later: not yet"}`:                                   func() (any, error) { return 7, fmt.Errorf("later: %w", Retry("not yet")) },
		`{"lease":"","outcome":"unknown","error":"who knows"}`:                                     func() (any, error) { return 7, Unknown("who knows") },
		`{"lease":"","outcome":"unknown","error":"full"}`:                                          func() (any, error) { return 7, cause },
		`{"lease":"","outcome":"unknown","error":"context deadline exceeded"}`:                     func() (any, error) { return 7, context.DeadlineExceeded },
		`{"lease":"","outcome":"unknown","error":"panic: full"}`:                                   func() (any, error) { panic(cause) },
		`{"lease":"","outcome":"unknown","error":"the function ended its goroutine"}`:              func() (any, error) { runtime.Goexit(); return 7, nil },
		`{"lease":"","outcome":"complete","result":{"unstorable":"json: unsupported value: NaN"}}`: func() (any, error) { return math.NaN(), nil },
	}
	for wanted, call := range calls {
		call := call
		worker.steps = map[string]function{}
		Step(worker, "a", "b", func(context.Context, Task[int]) (any, error) { return call() })
		report, _ := json.Marshal(worker.call(context.Background(), &held{leased: leased{Name: "a/b", Input: json.RawMessage("1")}}))
		if string(report) != wanted {
			t.Errorf("%s instead of %s", report, wanted)
		}
	}
	if !errors.Is(Retry("x: %w", cause), cause) {
		t.Error("the cause is lost")
	}
	worker.steps = map[string]function{}
	Compensation(worker, "a", "b", func(context.Context, CompensationTask[int, string]) error { t.Error("called"); return nil })
	report := worker.call(context.Background(), &held{leased: leased{Name: "a/b/undo", Input: json.RawMessage("1"), Result: json.RawMessage("2")}})
	if report.Outcome != unknown || !strings.Contains(*report.Error, "result") {
		t.Error(report)
	}
}

func TestTexts(t *testing.T) {
	for text, wanted := range map[string]string{"": "", "abc": "abc", "abcd": "abc", "äöüß": "äöü", "a\xffb": "a\uFFFDb"} {
		if found := cut(text, 3); found != wanted {
			t.Errorf("%q: %q", text, found)
		}
	}
	for key, wanted := range map[string]string{"a/b": "a%2Fb", "..": "%2E%2E", ".": "%2E", "ü ?": "%C3%BC%20%3F", "a.b": "a.b"} {
		if found := escaped(key); found != wanted {
			t.Errorf("%q: %q", key, found)
		}
	}
}

func TestStreams(t *testing.T) {
	text := "retry: 2000\nid: b-1\n: open\n\nid: b-2\nevent: saga_started\r\ndata: {\"name\": \"saga_started\",\ndata: \"key\": \"k\", \"at\": 1.5}\n\n" +
		": \n\nevent: missed\ndata: {}\n\nid: b-3\nevent: cut"
	stream := &EventStream{lines: bufio.NewReader(strings.NewReader(text)), alarm: time.NewTimer(time.Hour)}
	event, err := stream.read()
	if err != nil || event.ID != "b-2" || event.Name != "saga_started" || event.Key != "k" || event.At != 1.5 || stream.last != "b-2" {
		t.Error(event, err)
	}
	if event, err = stream.read(); err != nil || event.Name != Missed {
		t.Error(event, err)
	}
	if _, err = stream.read(); err == nil || stream.last != "b-2" {
		t.Error(stream.last, err) // what was cut off is asked for again
	}
}

func TestBatches(t *testing.T) {
	worker, _ := NewWorker("http://127.0.0.1:1")
	r := newRun(worker, context.Background())
	big := json.RawMessage(strings.Repeat(" ", mostBytes))
	r.outbox = append(make([]taskReport, mostBatch+1), taskReport{Result: &big}, taskReport{})
	r.senders = 1
	var sizes []int
	for batch := r.batch(); len(batch) > 0; batch = r.batch() {
		sizes = append(sizes, len(batch))
	}
	if fmt.Sprint(sizes) != "[100 1 1 1]" || r.senders != 0 {
		t.Error(sizes, r.senders)
	}
}
