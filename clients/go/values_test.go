package sagas

import (
	"context"
	"encoding/base64"
	"errors"
	"fmt"
	"net/http"
	"net/http/httptest"
	"strings"
	"testing"
)

type reverse struct{ fails bool }

func (r reverse) Decode(data []byte) ([]byte, error) {
	if r.fails {
		return nil, errors.New("s3cret")
	}
	turned := make([]byte, len(data))
	for i, b := range data {
		turned[len(data)-1-i] = b
	}
	return turned, nil
}

func coded(value string) string {
	data, _ := reverse{}.Decode([]byte(value))
	return fmt.Sprintf(`{"$codec": %q}`, base64.StdEncoding.EncodeToString(data))
}

func blob(key string) string {
	return fmt.Sprintf(`{"$blob": %q, "bytes": 1, "digest": "00"}`, key)
}

type memory map[string]string

func (m memory) Get(_ context.Context, key string) ([]byte, error) {
	if value, ok := m[key]; ok {
		return []byte(value), nil
	}
	return nil, errors.New("s3cret")
}

func TestValuesAreRead(t *testing.T) {
	body := ""
	server := httptest.NewServer(http.HandlerFunc(func(w http.ResponseWriter, _ *http.Request) {
		w.Header().Set("Content-Type", "application/json")
		fmt.Fprint(w, body)
	}))
	defer server.Close()
	there := memory{"a/1/1": coded(`"large"`), "a/1/2": "[12345678901234567890]", "a/1/3": `{"$plain":{"$codec":"AAAA"}}`}
	for _, one := range []struct {
		stored, want string
		options      []Option
	}{
		{coded("7"), coded("7"), nil},
		{coded("7"), "7", []Option{WithCodec(reverse{})}},
		{"[1]", "[1]", []Option{WithCodec(reverse{})}},
		{blob("a/1/1"), blob("a/1/1"), []Option{WithCodec(reverse{})}},
		{blob("a/1/1"), `"large"`, []Option{WithCodec(reverse{}), WithBlobs(there)}},
		{blob("a/1/1"), coded(`"large"`), []Option{WithBlobs(there)}},
		{blob("a/1/2"), "[12345678901234567890]", []Option{WithBlobs(there)}},
		{blob("a/1/3"), `{"$codec":"AAAA"}`, []Option{WithCodec(reverse{}), WithBlobs(there)}},
		{blob("a/1/4"), "", []Option{WithBlobs(there)}},
		{coded("7"), "", []Option{WithCodec(reverse{true})}},
		{coded("s3cret"), "", []Option{WithCodec(reverse{})}},
	} {
		body = fmt.Sprintf(`{"key": "k", "over": true, "input": %s, "results": {"a": %s}}`, one.stored, one.stored)
		client, err := NewClient(server.URL, one.options...)
		if err != nil {
			t.Fatal(err)
		}
		saga, err := client.Wait(context.Background(), "k")
		if one.want == "" {
			if !errors.Is(err, ErrCannotDecode) || strings.Contains(err.Error(), "s3cr") {
				t.Error(one.stored, err)
			}
			continue
		}
		if err != nil || string(saga.Input) != one.want || string(saga.Results["a"]) != one.want {
			t.Error(one.stored, saga, err)
		}
	}
}
