package sagas

import (
	"context"
	"encoding/json"
	"net/url"
	"strconv"
	"strings"
	"time"
)

// DecisionFilter selects decisions. An empty one selects all.
type DecisionFilter struct {
	// Key selects decisions on the saga with this key.
	Key        string
	Definition string
	// Decision selects decisions of this kind, for example "retry".
	Decision string
	// Page is how many decisions a request asks for, from 1 to 1,000 (default: 100).
	Page int
}

func (f DecisionFilter) query() url.Values {
	query := url.Values{}
	for name, value := range map[string]string{"key": f.Key, "definition": f.Definition, "decision": f.Decision} {
		if value != "" {
			query.Set(name, value)
		}
	}
	if f.Page > 0 {
		query.Set("limit", strconv.Itoa(f.Page))
	}
	return query
}

// Decision is what an operator or an approver decided, on one saga or on several.
type Decision struct {
	// Number is its position: a later decision has a larger number.
	Number   int64     `json:"number"`
	Decision string    `json:"decision"`
	At       time.Time `json:"time"`
	// By is who decided; empty if a program did not say.
	By   string `json:"by"`
	Via  string `json:"via"`
	Note string `json:"note"`
	// Bulk is whether it was one decision on several sagas.
	Bulk bool `json:"bulk"`
	// Subject is on what it was, if on no saga: the scope of a pause.
	Subject string `json:"subject"`
	// Sagas has at most 1,000 of them.
	Sagas []DecidedSaga `json:"sagas"`
}

// DecidedSaga is a saga of a decision.
type DecidedSaga struct {
	Key        string `json:"key"`
	Definition string `json:"definition"`
	// Step is empty if the saga itself is meant.
	Step string `json:"step"`
	// Undo is whether the compensation of the step is meant.
	Undo bool `json:"undo"`
	// Answer is "done", "refused" or "waiting".
	Answer string `json:"answer"`
}

// Decisions iterates over decisions on sagas that the token may see, the newest first, as List does over sagas.
func (c *Client) Decisions(ctx context.Context, filter DecisionFilter) *DecisionList {
	list := &DecisionList{ctx: ctx, conn: c.conn, query: filter.query()}
	if filter.Page < 0 || filter.Page > mostPage {
		list.err = invalidArgument("a page of %d decisions is not between 1 and %d", filter.Page, mostPage)
	}
	return list
}

// DecisionList is an iterator of decisions. It loads a page at a time. Only one goroutine may use it.
type DecisionList struct {
	ctx   context.Context
	conn  *connection
	query url.Values
	page  []Decision
	at    Decision
	last  bool
	err   error
}

// Next goes to the next decision. It returns false at the end, and after an error.
func (l *DecisionList) Next() bool {
	for l.err == nil {
		if len(l.page) > 0 {
			l.at, l.page = l.page[0], l.page[1:]
			return true
		}
		if l.last {
			return false
		}
		var found struct {
			Decisions []Decision
			Next      json.RawMessage // a number, or a text of a store over several databases
		}
		l.err = l.conn.call(l.ctx, "GET", "/v1/decisions?"+l.query.Encode(), nil, &found)
		next := strings.Trim(string(found.Next), `"`)
		l.page, l.last = found.Decisions, next == "" || next == "null"
		if !l.last {
			l.query.Set("after", next)
		}
	}
	return false
}

// Decision returns the decision that Next went to.
func (l *DecisionList) Decision() Decision { return l.at }

// Err returns what ended the list early, or nil.
func (l *DecisionList) Err() error { return l.err }
