package sagas

import (
	"bytes"
	"context"
	"encoding/json"
	"errors"
	"io"
	"log"
	"math/rand"
	"net"
	"net/http"
	"net/url"
	"strconv"
	"strings"
	"sync"
	"time"
)

const (
	firstPause     = 100 * time.Millisecond
	mostPause      = 5 * time.Second
	connectTimeout = 10 * time.Second
	answerTimeout  = 20 * time.Second // of a client's request
)

var errNoObject = errors.New("something other than the service answered: that is not a JSON object")

// Logger gets what a client or worker says for people. A *log.Logger is one.
type Logger interface {
	Printf(format string, values ...any)
}

type settings struct {
	services []string
	token    string
	http     *http.Client
	logger   Logger
	timeout  time.Duration
	codec    Codec
	blobs    Blobs
}

// Option configures a Client. It is also a WorkerOption.
type Option func(*settings)

func (o Option) applyWorker(w *workerSettings) { o(&w.settings) }

// WithToken sends a token with each request.
func WithToken(token string) Option {
	return func(s *settings) { s.token = token }
}

// WithServices adds services over the same database. A client or worker begins with a random one of
// all, and stays there while it answers. If one does not answer, the next one is asked.
func WithServices(urls ...string) Option {
	return func(s *settings) { s.services = append(s.services, urls...) }
}

// WithHTTPClient replaces the HTTP client, for example for TLS or a proxy. Its Timeout must be 0, or
// longer than a minute. The default client connects directly, and follows no redirects.
func WithHTTPClient(client *http.Client) Option {
	return func(s *settings) { s.http = client }
}

// WithLogger replaces the logger (default: log.Default()).
func WithLogger(logger Logger) Option {
	return func(s *settings) { s.logger = logger }
}

// WithTimeout sets for how long a call of a client repeats its request while no service answers
// (default: one minute). The context of a call may end it earlier. A worker repeats without end.
func WithTimeout(timeout time.Duration) Option {
	return func(s *settings) { s.timeout = timeout }
}

// connection asks one or more services over one database.
type connection struct {
	settings
	mu    sync.Mutex
	first int  // the service that is asked now
	lacks bool // it was said that none answers
}

func newConnection(address string, s settings) (*connection, error) {
	c := &connection{settings: s}
	c.services = append([]string{address}, s.services...)
	c.first = rand.Intn(len(c.services)) // many clients spread over them
	for at, one := range c.services {
		parsed, err := url.Parse(one)
		if err != nil || (parsed.Scheme != "http" && parsed.Scheme != "https") || parsed.Host == "" {
			return nil, invalidArgument("%q is not the address of a service; write, for example, http://127.0.0.1:8080", shown(one))
		}
		c.services[at] = strings.TrimRight(one, "/")
	}
	if strings.IndexFunc(c.token, func(one rune) bool { return one <= ' ' || one > '~' }) >= 0 {
		return nil, invalidArgument("the token has a character that no token has, for example a line break; copy it again")
	}
	if c.http == nil {
		c.http = defaultHTTPClient()
	}
	if c.logger == nil {
		c.logger = log.Default()
	}
	if c.timeout == 0 {
		c.timeout = time.Minute
	}
	return c, nil
}

// shown is an address for people: without a user and a password.
func shown(address string) string {
	if parsed, err := url.Parse(address); err == nil && parsed.Host != "" {
		parsed.User = nil
		return parsed.String()
	}
	return address[strings.LastIndex(address, "@")+1:] // of one that cannot be read, they are before that
}

func defaultHTTPClient() *http.Client {
	return &http.Client{
		Transport: &http.Transport{
			DialContext:         (&net.Dialer{Timeout: connectTimeout, KeepAlive: 30 * time.Second}).DialContext,
			TLSHandshakeTimeout: connectTimeout,
			MaxIdleConnsPerHost: 256,
			IdleConnTimeout:     30 * time.Second,
			DisableCompression:  true,
		},
		CheckRedirect: func(*http.Request, []*http.Request) error { return http.ErrUseLastResponse },
	}
}

// url returns the service that is asked now.
func (c *connection) url() string {
	c.mu.Lock()
	defer c.mu.Unlock()
	return c.services[c.first]
}

// turnFrom asks the next service from now on, unless another call turned already.
func (c *connection) turnFrom(service string) {
	c.mu.Lock()
	defer c.mu.Unlock()
	if c.services[c.first] == service {
		c.first = (c.first + 1) % len(c.services)
	}
}

// lacking says once that a service does not answer, until one does.
func (c *connection) lacking(service string, err error) {
	c.mu.Lock()
	said := c.lacks
	c.lacks = true
	c.mu.Unlock()
	if !said {
		c.logger.Printf("sagas: %s does not answer: %v. Retrying", shown(service), err)
	}
}

func (c *connection) answered() {
	c.mu.Lock()
	c.lacks = false
	c.mu.Unlock()
}

// request is what is asked, of any service.
type request struct {
	method, path string
	body         []byte
	timeout      time.Duration // of one attempt
	most         time.Duration // each attempt that takes its timeout doubles that of the next one, up to this; or 0
	wait         time.Duration // of the service, before it answers
	header       http.Header   // beside those of every request; may be nil
}

// open sends a request to a service, and returns its answer before the body is read.
func (c *connection) open(ctx context.Context, service string, r request, header http.Header) (*http.Response, error) {
	var body io.Reader
	if r.body != nil {
		body = bytes.NewReader(r.body)
	}
	asked, err := http.NewRequestWithContext(ctx, r.method, service+r.path, body)
	if err != nil {
		return nil, err
	}
	if header != nil {
		asked.Header = header
	}
	if r.body != nil {
		asked.Header.Set("Content-Type", "application/json")
	}
	if c.token != "" {
		asked.Header.Set("Authorization", "Bearer "+c.token)
	}
	return c.http.Do(asked)
}

// ask sends a request to a service once. An answer that is not a success is a *Problem. One that is
// not a JSON object is no answer of the service: a page of a proxy, for example.
func (c *connection) ask(ctx context.Context, service string, r request) (body []byte, pause time.Duration, err error) {
	ctx, cancel := context.WithTimeout(ctx, r.timeout)
	defer cancel()
	answer, err := c.open(ctx, service, r, r.header.Clone())
	if err != nil {
		return nil, 0, bare(err)
	}
	defer answer.Body.Close()
	body, err = io.ReadAll(answer.Body)
	if err != nil {
		return nil, 0, bare(err)
	}
	if answer.StatusCode >= 300 {
		return nil, retryAfter(answer.Header), problemOf(answer.StatusCode, body)
	}
	if !json.Valid(body) || !bytes.HasPrefix(bytes.TrimSpace(body), []byte("{")) {
		return nil, 0, errNoObject
	}
	c.answered()
	return body, 0, nil
}

// bare leaves out the address and the method, which are said elsewhere.
func bare(err error) error {
	var wrapped *url.Error
	if errors.As(err, &wrapped) {
		return wrapped.Err
	}
	return err
}

func retryAfter(header http.Header) time.Duration {
	seconds, err := strconv.Atoi(header.Get("Retry-After"))
	if err != nil || seconds < 0 || seconds > 30 {
		return 0
	}
	return time.Duration(seconds) * time.Second
}

// until repeats a request until a service answers it. It returns a *Problem, or an
// *UnreachableError once the context has ended.
func (c *connection) until(ctx context.Context, r request) ([]byte, error) {
	return c.repeat(ctx, r, func(service string, r request) ([]byte, time.Duration, error) {
		return c.ask(ctx, service, r)
	})
}

// attempt sends a request to a service once, as ask does.
type attempt func(service string, r request) (body []byte, pause time.Duration, err error)

// repeat is until with a function for each attempt: one that is under way when the repetition ends
// may still be answered.
func (c *connection) repeat(ctx context.Context, r request, try attempt) ([]byte, error) {
	pause := firstPause
	last := errors.New("no answer in time")
	for tries := 0; ; tries++ {
		service := c.url()
		body, asked, err := try(service, r)
		if err == nil {
			return body, nil
		}
		var problem *Problem
		if errors.As(err, &problem) && !repeats(problem.Status) {
			c.answered()
			return nil, err
		}
		if ctx.Err() != nil {
			return nil, unreachable(service, last, ctx.Err())
		}
		if !errors.Is(err, context.DeadlineExceeded) { // of the attempt
			last = err
		} else if r.timeout < r.most {
			r.timeout = shortest(2*r.timeout, r.most)
		}
		c.turnFrom(service)
		if tries == 0 && problem == nil {
			continue // a connection that was kept is closed at times: once more, and at once
		}
		c.lacking(service, last)
		wait := time.Duration((0.5 + rand.Float64()/2) * float64(pause))
		if asked > wait {
			wait = asked
		}
		if !sleep(ctx, wait) {
			return nil, unreachable(service, last, ctx.Err())
		}
		if pause *= 2; pause > mostPause {
			pause = mostPause
		}
	}
}

// call repeats a request of a client, for as long as its timeout, and reads the answer.
func (c *connection) call(ctx context.Context, method, path string, asked, answer any) error {
	return c.send(ctx, request{method: method, path: path}, asked, answer)
}

// send is call for a request with headers of its own.
func (c *connection) send(ctx context.Context, r request, asked, answer any) error {
	r.timeout = r.wait + answerTimeout
	if asked != nil {
		body, err := json.Marshal(asked)
		if err != nil {
			return invalidArgument("%v", err)
		}
		r.body = body
	}
	within, cancel := context.WithTimeout(ctx, r.wait+c.timeout)
	defer cancel()
	body, err := c.until(within, r)
	var silent *UnreachableError
	if errors.As(err, &silent) {
		if silent.Context = ctx.Err(); silent.Context == nil { // its caller has not given up
			c.turnFrom(silent.service)
		}
	}
	if err != nil || answer == nil {
		return err
	}
	return json.Unmarshal(body, answer)
}

// sleep waits, and returns false if the context ended first.
func sleep(ctx context.Context, d time.Duration) bool {
	timer := time.NewTimer(d)
	defer timer.Stop()
	select {
	case <-ctx.Done():
		return false
	case <-timer.C:
		return true
	}
}

func shortest(a, b time.Duration) time.Duration {
	if a < b {
		return a
	}
	return b
}

// escaped writes a key or a name as a part of a path.
func escaped(text string) string {
	if text == "." || text == ".." {
		return strings.ReplaceAll(text, ".", "%2E")
	}
	return url.PathEscape(text)
}
