package sagas

import (
	"context"
	"encoding/json"
	"errors"
	"net/http"
	"net/url"
	"regexp"
	"strconv"
	"strings"
	"time"
)

// mostWait is the longest that one request waits at the service.
const mostWait = 30 * time.Second

// mostWay is how much of the time of a Wait is for the way of its first answer, at most.
const mostWay = 500 * time.Millisecond

// mostPage is how many sagas a page of a list has at most.
const mostPage = 1000

// Client starts sagas, looks at them and changes them. Any number of goroutines may use it.
//
// Each call repeats its request until a service answers, for at most the time of WithTimeout. All
// requests may be repeated: the key makes a start one saga, and the same report is one report. Then
// the error is an *UnreachableError. The context ends a call earlier.
type Client struct {
	conn   *connection
	values values
}

// NewClient makes a client of a service. It sends nothing. The error is ErrInvalidArgument if the
// URL is not the address of a service.
func NewClient(url string, options ...Option) (*Client, error) {
	var s settings
	for _, option := range options {
		option(&s)
	}
	conn, err := newConnection(url, s)
	if err != nil {
		return nil, err
	}
	return &Client{conn, values{s.codec, s.blobs}}, nil
}

// Started is the answer to a start.
type Started struct {
	Key        string `json:"key"`
	Definition string `json:"definition"`
	Version    int    `json:"version"`
	// New is false if the key had this saga already, or if the request was repeated.
	New bool `json:"new"`
}

type start struct {
	Definition string            `json:"definition"`
	Key        string            `json:"key"`
	Input      any               `json:"input"`
	Version    *int              `json:"version,omitempty"`
	Labels     map[string]string `json:"labels,omitempty"`
	Deadline   *float64          `json:"deadline,omitempty"`

	traceparent string // a header
}

// StartOption configures Start.
type StartOption func(*start)

// WithLabels gives the saga labels, by which it can be listed.
func WithLabels(labels map[string]string) StartOption {
	return func(s *start) { s.Labels = labels }
}

// WithDeadline aborts the saga if it has not ended after so long.
func WithDeadline(after time.Duration) StartOption {
	return func(s *start) {
		seconds := after.Seconds()
		s.Deadline = &seconds
	}
}

// WithVersion starts this version of the definition (default: the newest for a new saga, and any for
// an existing one).
func WithVersion(version int) StartOption {
	return func(s *start) { s.Version = &version }
}

// WithTraceparent says in which W3C trace context the saga is started (default: none). Workers get it
// as Task.Traceparent.
func WithTraceparent(traceparent string) StartOption {
	return func(s *start) { s.traceparent = traceparent }
}

var traceparents = regexp.MustCompile("^[0-9a-f]{2}-[0-9a-f]{32}-[0-9a-f]{16}-[0-9a-f]{2}$")

// header returns the headers of a start.
func (s *start) header() (http.Header, error) {
	if s.traceparent == "" {
		return nil, nil
	}
	none := strings.Contains(s.traceparent, "-"+strings.Repeat("0", 32)+"-") ||
		strings.Contains(s.traceparent, "-"+strings.Repeat("0", 16)+"-")
	if none || strings.HasPrefix(s.traceparent, "ff") || !traceparents.MatchString(s.traceparent) {
		return nil, invalidArgument("the traceparent is not a W3C trace context")
	}
	return http.Header{"Traceparent": {s.traceparent}}, nil
}

// Start starts a saga, or finds the one that has the key. When it returns, the saga is stored.
//
// The input is any value that encoding/json writes. If the key has another definition, version or
// input, the error is ErrKeyConflict. If the service has no such definition, it is ErrNoSuchDefinition.
func Start[In any](ctx context.Context, c *Client, definition, key string, input In, options ...StartOption) (Started, error) {
	asked := start{Definition: definition, Key: key, Input: input}
	for _, option := range options {
		option(&asked)
	}
	var found Started
	header, err := asked.header()
	if err == nil {
		err = c.conn.send(ctx, request{method: "POST", path: "/v1/sagas", header: header}, asked, &found)
	}
	return found, err
}

// Get returns a saga. The error is ErrNoSuchSaga if no saga has the key.
func (c *Client) Get(ctx context.Context, key string) (*Saga, error) {
	return c.get(ctx, key, "", 0)
}

// get returns a saga, for which the service may wait.
func (c *Client) get(ctx context.Context, key, more string, wait time.Duration) (*Saga, error) {
	if key == "" {
		return nil, invalidArgument("the key is empty")
	}
	found := new(Saga)
	r := request{method: "GET", path: "/v1/sagas/" + escaped(key) + more, wait: wait}
	if err := c.conn.send(ctx, r, nil, found); err != nil {
		return nil, err
	}
	if err := c.values.read(ctx, found); err != nil {
		return nil, err
	}
	return found, nil
}

// Wait returns a saga when it is over, that is when its phase is not Open.
//
// If the context ends first, it returns its error and the saga as it was seen last. Its Waits say what
// it waits for. The saga is nil if no service answered in time.
func (c *Client) Wait(ctx context.Context, key string) (*Saga, error) {
	var last *Saga
	for {
		seconds := mostWait
		if deadline, ok := ctx.Deadline(); ok {
			if left := time.Until(deadline); left < seconds {
				seconds = left
			}
		}
		if last == nil && seconds < mostWait {
			seconds -= shortest(seconds/10, mostWay) // so that it is seen before the context ends
		}
		if seconds < 0 {
			seconds = 0
		}
		saga, err := c.get(ctx, key, "/wait?seconds="+strconv.FormatFloat(seconds.Seconds(), 'f', 3, 64), seconds)
		switch {
		case err == nil && saga.Over:
			return saga, nil
		case err == nil:
			last = saga
			if err := ctx.Err(); err != nil {
				return last, err
			}
		case ctx.Err() != nil && errors.Is(err, ErrUnavailable):
			return last, ctx.Err()
		default:
			return last, err
		}
	}
}

type report struct {
	Undo  bool   `json:"undo,omitempty"`
	Note  string `json:"note,omitempty"`
	Early *bool  `json:"early,omitempty"`
}

// ReportOption configures Complete and Fail.
type ReportOption func(*report)

// OfCompensation means the compensation of the step.
func OfCompensation() ReportOption {
	return func(r *report) { r.Undo = true }
}

// WithNote stores why, for people.
func WithNote(note string) ReportOption {
	return func(r *report) { r.Note = note }
}

// RefuseEarly makes ErrStepNotWaiting of a report that comes before the step begins. Without it, the
// service stores the report until then.
func RefuseEarly() ReportOption {
	return func(r *report) { r.Early = new(bool) }
}

// Abort aborts a saga: no further step starts, and a plan decides what is undone. The note says why,
// and may be empty. It returns false if the saga is over or was aborted before.
func (c *Client) Abort(ctx context.Context, key, note string) (bool, error) {
	if key == "" {
		return false, invalidArgument("the key is empty")
	}
	var found struct{ Aborted bool }
	err := c.conn.call(ctx, "POST", "/v1/sagas/"+escaped(key)+"/abort", report{Note: note}, &found)
	return found.Aborted, err
}

// Complete reports that a step is done, for example an approval. The same report twice is one.
//
// The error is ErrConflictingReport if another outcome was reported first, and ErrStepNotWaiting if
// the step waits for no report. ErrForbidden means that the token may not decide it.
func (c *Client) Complete(ctx context.Context, key, step string, result any, options ...ReportOption) error {
	return c.report(ctx, key, step, "complete", struct {
		Result any `json:"result"`
		report
	}{result, reportOf(options)})
}

// Fail reports that a step failed permanently, without an effect. See Complete.
func (c *Client) Fail(ctx context.Context, key, step, text string, options ...ReportOption) error {
	return c.report(ctx, key, step, "fail", struct {
		Error string `json:"error"`
		report
	}{text, reportOf(options)})
}

func reportOf(options []ReportOption) (r report) {
	for _, option := range options {
		option(&r)
	}
	return r
}

func (c *Client) report(ctx context.Context, key, step, word string, body any) error {
	if key == "" || step == "" {
		return invalidArgument("the key or the step is empty")
	}
	return c.conn.call(ctx, "POST", "/v1/sagas/"+escaped(key)+"/steps/"+escaped(step)+"/"+word, body, nil)
}

// Filter selects sagas. Its zero value selects all.
type Filter struct {
	Phase      Phase
	Definition string
	// Search selects sagas whose key contains it.
	Search string
	// Labels selects sagas that have all of them.
	Labels map[string]string
	// StartedAfter and StartedBefore select by the time of the start.
	StartedAfter, StartedBefore time.Time
	// Error selects sagas of which an attempt raised a text that contains it.
	Error string
	// Page is how many sagas a request asks for, from 1 to 1,000 (default: 100).
	Page int
}

func (f Filter) query() url.Values {
	query := url.Values{}
	add := func(name, value string) {
		if value != "" {
			query.Add(name, value)
		}
	}
	add("phase", string(f.Phase))
	add("definition", f.Definition)
	add("search", f.Search)
	add("error", f.Error)
	for name, value := range f.Labels {
		query.Add("label", name+"="+value)
	}
	if !f.StartedAfter.IsZero() {
		add("started_after", f.StartedAfter.Format(time.RFC3339Nano))
	}
	if !f.StartedBefore.IsZero() {
		add("started_before", f.StartedBefore.Format(time.RFC3339Nano))
	}
	if f.Page > 0 {
		add("limit", strconv.Itoa(f.Page))
	}
	return query
}

// List iterates over sagas, the newest first:
//
//	list := client.List(ctx, sagas.Filter{Phase: sagas.Stuck})
//	for list.Next() {
//		fmt.Println(list.Saga().Key)
//	}
//	if err := list.Err(); err != nil {
//		return err
//	}
func (c *Client) List(ctx context.Context, filter Filter) *List {
	list := &List{ctx: ctx, conn: c.conn, query: filter.query()}
	if filter.Page < 0 || filter.Page > mostPage {
		list.err = invalidArgument("a page of %d sagas is not between 1 and %d", filter.Page, mostPage)
	}
	return list
}

// List is an iterator of sagas. It loads a page at a time. Only one goroutine may use it.
type List struct {
	ctx   context.Context
	conn  *connection
	query url.Values
	page  []Summary
	at    Summary
	last  bool
	err   error
}

// Next goes to the next saga. It returns false at the end, and after an error.
func (l *List) Next() bool {
	for l.err == nil {
		if len(l.page) > 0 {
			l.at, l.page = l.page[0], l.page[1:]
			return true
		}
		if l.last {
			return false
		}
		var found struct {
			Sagas []Summary
			Next  *string
		}
		l.err = l.conn.call(l.ctx, "GET", "/v1/sagas?"+l.query.Encode(), nil, &found)
		l.page, l.last = found.Sagas, found.Next == nil
		if !l.last {
			l.query.Set("after", *found.Next)
		}
	}
	return false
}

// Saga returns the saga that Next went to.
func (l *List) Saga() Summary { return l.at }

// Err returns what ended the list early, or nil.
func (l *List) Err() error { return l.err }

// History returns the events of a saga so far, in their order.
func (c *Client) History(ctx context.Context, key string) ([]HistoryEvent, error) {
	if key == "" {
		return nil, invalidArgument("the key is empty")
	}
	var found struct{ Events []HistoryEvent }
	err := c.conn.call(ctx, "GET", "/v1/sagas/"+escaped(key)+"/log", nil, &found)
	return found.Events, err
}

// HistoryEvent is what happened to a saga. Event is "note" for what a person did.
type HistoryEvent struct {
	Event string          `json:"event"`
	At    time.Time       `json:"time"`
	Step  string          `json:"step"`
	Value json.RawMessage `json:"value"`
}
