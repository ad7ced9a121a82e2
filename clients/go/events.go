package sagas

import (
	"bufio"
	"context"
	"encoding/json"
	"errors"
	"io"
	"mime"
	"net/http"
	"net/url"
	"strings"
	"sync"
	"time"
)

// quiet is after how long without a byte a stream counts as lost: the service says something every
// 15 seconds.
const quiet = 45 * time.Second

var errNoStream = errors.New("something other than the service answered: that is not a stream of events")

// Missed is the name of the event that stands for events which are no longer stored. Look at the
// sagas themselves.
const Missed = "missed"

// Event is what happened, as the stream of the service has it.
type Event struct {
	// ID is the place in the stream: give it to EventFilter.After.
	ID string `json:"-"`
	// Name is the name of the event, for example "saga_ended", or Missed.
	Name string `json:"name"`
	// At is the time in seconds since 1970.
	At      float64 `json:"at"`
	Key     string  `json:"key"`
	Saga    string  `json:"saga"`
	Step    string  `json:"step"`
	Undo    bool    `json:"undo"`
	Attempt int     `json:"attempt"`
	// Seconds is how long the function took, if the service called it.
	Seconds float64 `json:"seconds"`
	// Detail is what was raised, planned or found.
	Detail string `json:"detail"`
	// Data is the whole event in JSON.
	Data json.RawMessage `json:"-"`
}

// EventFilter selects events. Its zero value selects all, from now on.
type EventFilter struct {
	Key        string
	Definition string
	// After continues after this Event.ID (default: from now on).
	After string
}

// Events opens a stream of events. It has all events from the moment that Events returns.
//
//	events, err := client.Events(ctx, sagas.EventFilter{Definition: "trip"})
//	if err != nil {
//		return err
//	}
//	defer events.Close()
//	for events.Next() {
//		fmt.Println(events.Event().Name, events.Event().Key)
//	}
//	return events.Err()
//
// If the connection breaks, the stream continues after the last event, for as long as the context
// lasts. If events were lost, one named Missed says so.
func (c *Client) Events(ctx context.Context, filter EventFilter) (*EventStream, error) {
	query := url.Values{}
	if filter.Key != "" {
		query.Set("key", filter.Key)
	}
	if filter.Definition != "" {
		query.Set("definition", filter.Definition)
	}
	path := "/v1/events"
	if len(query) > 0 {
		path += "?" + query.Encode()
	}
	if strings.ContainsAny(filter.After, "\r\n") {
		return nil, invalidArgument("%q is not the ID of an event", filter.After)
	}
	ctx, cancel := context.WithCancel(ctx)
	s := &EventStream{ctx: ctx, cancel: cancel, conn: c.conn, path: path, last: filter.After}
	if err := s.connect(c.conn.timeout); err != nil {
		cancel()
		return nil, err
	}
	return s, nil
}

// EventStream is an iterator of events. Only one goroutine may use it; any may close it.
type EventStream struct {
	ctx    context.Context
	cancel context.CancelFunc
	conn   *connection
	path   string
	last   string // the ID of the last event
	at     Event
	first  *Event // that was read while the stream was opened
	body   io.Closer
	lines  *bufio.Reader
	alarm  *time.Timer // ends a stream that says nothing while it is read
	stop   context.CancelFunc
	err    error
	mu     sync.Mutex
	closed bool
}

// connect asks for the stream until a service answers, and for at most a time if it is not 0.
func (s *EventStream) connect(most time.Duration) error {
	until, pause := time.Now().Add(most), firstPause
	last := errors.New("no answer in time")
	for {
		service, left := s.conn.url(), answerTimeout
		if most > 0 {
			left = shortest(left, time.Until(until))
		}
		err := s.open(service, left)
		if err == nil {
			return nil
		}
		var problem *Problem
		if errors.As(err, &problem) && !repeats(problem.Status) {
			return err
		}
		if !errors.Is(err, context.Canceled) && !errors.Is(err, context.DeadlineExceeded) {
			last = err
		}
		if s.ctx.Err() != nil {
			return unreachable(service, last, s.ctx.Err())
		}
		s.conn.turnFrom(service)
		if most > 0 && time.Until(until) < pause {
			return unreachable(service, last, nil)
		}
		s.conn.lacking(service, last)
		if !sleep(s.ctx, pause) {
			return unreachable(service, last, s.ctx.Err())
		}
		if pause *= 2; pause > mostPause {
			pause = mostPause
		}
	}
}

// open asks a service for the stream, and reads what comes first: the ID after which it continues if
// the connection breaks.
func (s *EventStream) open(service string, most time.Duration) (err error) {
	header := http.Header{"Accept": {"text/event-stream"}}
	if s.last != "" {
		header.Set("Last-Event-ID", s.last)
	}
	ctx, cancel := context.WithCancel(s.ctx)
	s.alarm = time.AfterFunc(most, cancel) // the context ends with the stream's
	defer func() {
		s.alarm.Stop()
		if err != nil {
			cancel()
		}
	}()
	answer, err := s.conn.open(ctx, service, request{method: "GET", path: s.path}, header)
	if err != nil {
		return bare(err)
	}
	s.body, s.lines, s.stop = answer.Body, bufio.NewReader(answer.Body), cancel
	if err = refusalOf(answer); err == nil {
		s.first, err = s.block()
	}
	if err != nil {
		answer.Body.Close()
		return bare(err)
	}
	s.conn.answered()
	return nil
}

// refusalOf is what an answer says that is not a stream of events, or nil.
func refusalOf(answer *http.Response) error {
	if answer.StatusCode != http.StatusOK {
		body, err := io.ReadAll(io.LimitReader(answer.Body, 1<<16))
		if err != nil {
			return err
		}
		return problemOf(answer.StatusCode, body)
	}
	if kind, _, _ := mime.ParseMediaType(answer.Header.Get("Content-Type")); kind != "text/event-stream" {
		return errNoStream
	}
	return nil
}

// Next waits for the next event. It returns false once the stream is closed, its context has ended,
// or the service refuses it.
func (s *EventStream) Next() bool {
	for s.err == nil {
		found, err := s.read()
		if err == nil {
			s.at = *found
			return true
		}
		s.hangUp()
		if sleep(s.ctx, firstPause) { // it may be one that ends each stream at once
			err = s.connect(0)
		}
		if s.ctx.Err() != nil {
			err = s.ctx.Err()
		}
		s.err = err
	}
	return false
}

// read waits for the next event.
func (s *EventStream) read() (*Event, error) {
	if first := s.first; first != nil {
		s.first = nil
		return first, nil
	}
	defer s.alarm.Stop()
	for {
		s.alarm.Reset(quiet)
		if found, err := s.block(); found != nil || err != nil {
			return found, err
		}
	}
}

// block reads up to an empty line: an event, or nil if there is only a comment or an ID.
func (s *EventStream) block() (*Event, error) {
	var name string
	var data strings.Builder
	id, reported := s.last, false
	for {
		line, err := s.lines.ReadString('\n')
		if err != nil {
			return nil, err // an incomplete event is sent again
		}
		line = strings.TrimRight(line, "\r\n")
		if line == "" {
			s.last = id
			if reported {
				return eventOf(name, id, data.String()), nil
			}
			return nil, nil
		}
		field, value, _ := strings.Cut(line, ":")
		value = strings.TrimPrefix(value, " ")
		switch field {
		case "event":
			name = value
		case "id":
			id = value
		case "data":
			if reported {
				data.WriteByte('\n')
			}
			data.WriteString(value)
			reported = true
		}
	}
}

func eventOf(name, id, data string) *Event {
	event := new(Event)
	_ = json.Unmarshal([]byte(data), event) // what a later service adds does not matter
	event.Name, event.ID, event.Data = name, id, json.RawMessage(data)
	return event
}

func (s *EventStream) hangUp() {
	s.alarm.Stop()
	s.stop()
	s.body.Close()
}

// Event returns the event that Next went to.
func (s *EventStream) Event() Event { return s.at }

// Err returns what ended the stream, or nil if Close did.
func (s *EventStream) Err() error {
	s.mu.Lock()
	defer s.mu.Unlock()
	if s.closed {
		return nil
	}
	return s.err
}

// Close ends the stream. A Next that waits returns false.
func (s *EventStream) Close() error {
	s.mu.Lock()
	s.closed = true
	s.mu.Unlock()
	s.cancel()
	return nil
}
