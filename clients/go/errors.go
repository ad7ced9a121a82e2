package sagas

import (
	"encoding/json"
	"errors"
	"fmt"
	"strings"
)

const problemPrefix = "urn:sagas:problem:"

// Problem is an answer of the service that refuses a request. It is a problem document of RFC 9457.
//
// errors.Is(err, sagas.ErrKeyConflict) compares its name, and errors.Is(err, sagas.ErrConflict) its
// kind.
type Problem struct {
	// Name is the name of the problem, for example "KeyConflict", or empty if the answer comes from
	// something else, such as a proxy.
	Name string
	// Title says what kind of problem it is, for people.
	Title string
	// Status is the HTTP status.
	Status int
	// Detail says what happened and what to do, for people.
	Detail string
	// Field names the parameter or the place in the body, if there is one.
	Field string
}

// Error returns the status, the name and the detail.
func (p *Problem) Error() string {
	if p.Name == "" {
		return fmt.Sprintf("sagas: %d: %s", p.Status, p.Detail)
	}
	return fmt.Sprintf("sagas: %d %s: %s", p.Status, p.Name, p.Detail)
}

// Is reports whether the problem has the name, or is of the kind, that target stands for.
func (p *Problem) Is(target error) bool {
	switch target := target.(type) {
	case ProblemName:
		return p.Name == string(target)
	case ErrorKind:
		return kindOf(p.Status) == target
	}
	return false
}

// ProblemName is an error that stands for all problems of one name. Compare it with errors.Is.
type ProblemName string

// Error returns the name.
func (n ProblemName) Error() string { return "sagas: " + string(n) }

// The problems of the service. The reference of HTTP errors says for each what to do.
const (
	ErrRequestTimeout       ProblemName = "RequestTimeout"
	ErrTooManyRequests      ProblemName = "TooManyRequests"
	ErrInternalError        ProblemName = "InternalError"
	ErrTooManyStreams       ProblemName = "TooManyStreams"
	ErrStarting             ProblemName = "Starting"
	ErrStopping             ProblemName = "Stopping"
	ErrClosed               ProblemName = "Closed"
	ErrRightsChanged        ProblemName = "RightsChanged"
	ErrOwnerUnavailable     ProblemName = "OwnerUnavailable"
	ErrStoreUnavailable     ProblemName = "StoreUnavailable"
	ErrMalformedRequest     ProblemName = "MalformedRequest"
	ErrInvalidJSON          ProblemName = "InvalidJson"
	ErrNoSuchPath           ProblemName = "NotFound"
	ErrMethodNotAllowed     ProblemName = "MethodNotAllowed"
	ErrBodyTooLarge         ProblemName = "BodyTooLarge"
	ErrUnsupportedMediaType ProblemName = "UnsupportedMediaType"
	ErrInvalidRequest       ProblemName = "InvalidRequest"
	ErrInvalidKey           ProblemName = "InvalidKey"
	ErrInvalidInput         ProblemName = "InvalidInput"
	ErrInvalidLabel         ProblemName = "InvalidLabel"
	ErrInvalidResult        ProblemName = "InvalidResult"
	ErrNotSerializable      ProblemName = "NotSerializable"
	ErrTooLarge             ProblemName = "TooLarge"
	ErrUnauthorized         ProblemName = "Unauthorized"
	ErrForbidden            ProblemName = "Forbidden"
	ErrUnknownHost          ProblemName = "UnknownHost"
	ErrCrossOrigin          ProblemName = "CrossOrigin"
	ErrNoSuchSaga           ProblemName = "NoSuchSaga"
	ErrNoSuchSchedule       ProblemName = "NoSuchSchedule"
	ErrNoSuchDefinition     ProblemName = "NoSuchDefinition"
	ErrNoPlan               ProblemName = "NoPlan"
	ErrKeyConflict          ProblemName = "KeyConflict"
	ErrStepNotWaiting       ProblemName = "StepNotWaiting"
	ErrConflictingReport    ProblemName = "ConflictingReport"
	ErrSagaOver             ProblemName = "SagaOver"
	ErrNotAbortable         ProblemName = "NotAbortable"
	ErrNotRestartable       ProblemName = "NotRestartable"
	ErrCountChanged         ProblemName = "CountChanged"
	ErrInvalidLease         ProblemName = "InvalidLease"
	ErrNoSuchTask           ProblemName = "NoSuchTask"
	ErrLeaseLost            ProblemName = "LeaseLost"
)

// ErrorKind is an error that stands for all problems with the same remedy. Compare it with
// errors.Is.
type ErrorKind string

// Error returns the kind.
func (k ErrorKind) Error() string { return "sagas: " + string(k) }

// The kinds of problems.
const (
	// ErrNotFound: the saga, definition, task or path does not exist, or the token must not see it.
	ErrNotFound ErrorKind = "not found"
	// ErrConflict: the request contradicts what is stored. Look at the saga.
	ErrConflict ErrorKind = "conflict"
	// ErrDenied: the token is missing, expired or does not allow it. Get another token.
	ErrDenied ErrorKind = "denied"
	// ErrInvalid: the request cannot be carried out by any service. Change it.
	ErrInvalid ErrorKind = "invalid request"
	// ErrUnavailable: no service could answer. Repeat the same request.
	ErrUnavailable ErrorKind = "unavailable"
)

// Errors that this package makes.
var (
	// ErrNoResult means that a step has no result that is in effect.
	ErrNoResult = errors.New("sagas: no result")
	// ErrStepFailed means that a task needs an optional step, and that the step has failed. The text
	// has what it raised.
	ErrStepFailed = errors.New("sagas: step failed")
	// ErrCannotDecode means that the codec or the blob store of WithCodec and WithBlobs cannot read a
	// value.
	ErrCannotDecode = errors.New("sagas: cannot decode")
	// ErrNoItem means that a task is of a step that is not there for items.
	ErrNoItem = errors.New("sagas: no item")
	// ErrInvalidArgument means that an argument of a call of this package is not valid. Nothing was
	// sent.
	ErrInvalidArgument = errors.New("sagas: invalid argument")
)

// repeats says whether the same request is to be repeated after a status.
func repeats(status int) bool {
	switch status {
	case 408, 429, 500, 502, 503, 504:
		return true
	}
	return false
}

func kindOf(status int) ErrorKind {
	switch {
	case repeats(status):
		return ErrUnavailable
	case status == 404:
		return ErrNotFound
	case status == 409:
		return ErrConflict
	case status == 401 || status == 403:
		return ErrDenied
	case status >= 400 && status < 500:
		return ErrInvalid
	}
	return ErrUnavailable
}

// problemOf reads an answer that is not a success.
func problemOf(status int, body []byte) *Problem {
	var parsed document
	if json.Unmarshal(body, &parsed) == nil && strings.HasPrefix(parsed.Type, problemPrefix) {
		parsed.Status = status
		return parsed.problem()
	}
	return &Problem{Status: status, Detail: strings.ToValidUTF8(string(body[:least(len(body), 500)]), "?")}
}

// document is a problem as the service writes it.
type document struct {
	Type, Title, Detail, Field string
	Status                     int
}

func (d document) problem() *Problem {
	name := strings.TrimPrefix(d.Type, problemPrefix)
	return &Problem{Name: name, Title: d.Title, Status: d.Status, Detail: d.Detail, Field: d.Field}
}

func least(a, b int) int {
	if a < b {
		return a
	}
	return b
}

// UnreachableError means that no service answered in time. The request may have been carried out,
// so repeat the same one.
//
// errors.Is(err, ErrUnavailable) is true for it. If the caller's context ended, so is
// errors.Is(err, context.DeadlineExceeded) or errors.Is(err, context.Canceled).
type UnreachableError struct {
	// URL is the service that was asked last, without a user and a password.
	URL string
	// Last is what the last attempt failed with.
	Last error
	// Context is the error of the caller's context, or nil if it did not end.
	Context error

	service string // the address as it was given
}

func unreachable(service string, last, ended error) *UnreachableError {
	return &UnreachableError{URL: shown(service), Last: last, Context: ended, service: service}
}

// Error returns the address and the last failure.
func (e *UnreachableError) Error() string {
	text := "sagas: " + e.URL + " did not answer: " + e.Last.Error()
	if e.Context != nil {
		text += " (" + e.Context.Error() + ")"
	}
	return text + "; repeat the request"
}

// Is reports whether target is ErrUnavailable or the context's error.
func (e *UnreachableError) Is(target error) bool {
	return target == ErrUnavailable || e.Context != nil && errors.Is(e.Context, target)
}

// Unwrap returns the last failure.
func (e *UnreachableError) Unwrap() error { return e.Last }

func invalidArgument(format string, values ...any) error {
	return fmt.Errorf("%w: %s", ErrInvalidArgument, fmt.Sprintf(format, values...))
}
