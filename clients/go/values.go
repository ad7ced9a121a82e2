package sagas

import (
	"context"
	"encoding/base64"
	"encoding/json"
	"fmt"
)

// Codec decodes values of a service whose store has a codec.
type Codec interface {
	// Decode returns the JSON of a value of which the store's codec made these bytes.
	Decode(data []byte) ([]byte, error)
}

// Blobs reads large values of a service whose store has a blob store.
type Blobs interface {
	// Get returns a value by its key.
	Get(ctx context.Context, key string) ([]byte, error)
}

// WithCodec decodes inputs and results of sagas (default: they are as the service answers them,
// {"$codec": ...} if they are encoded). Workers get plain values, and need none.
func WithCodec(codec Codec) Option {
	return func(s *settings) { s.codec = codec }
}

// WithBlobs reads large inputs and results of sagas (default: they are references, {"$blob": ...}).
func WithBlobs(blobs Blobs) Option {
	return func(s *settings) { s.blobs = blobs }
}

// values are those that a service answers as they are stored.
type values struct {
	codec Codec
	blobs Blobs
}

// read puts the values of a saga in place of what is stored.
func (v values) read(ctx context.Context, saga *Saga) error {
	if v.codec == nil && v.blobs == nil {
		return nil
	}
	var err error
	if saga.Input, err = v.value(ctx, saga.Input); err != nil {
		return fmt.Errorf("%w: input: %s", ErrCannotDecode, err)
	}
	for step, stored := range saga.Results {
		if saga.Results[step], err = v.value(ctx, stored); err != nil {
			return fmt.Errorf("%w: result of %s: %s", ErrCannotDecode, step, err)
		}
	}
	return nil
}

// value returns the value of what is stored. Its errors have the types of others, which may have the
// value in their texts.
func (v values) value(ctx context.Context, stored json.RawMessage) (json.RawMessage, error) {
	if key, ok := text(stored, "$blob", 3); ok && v.blobs != nil {
		data, err := v.blobs.Get(ctx, key)
		if err != nil {
			return nil, fmt.Errorf("the blob store failed (%T)", err)
		}
		stored = data
		var plain map[string]json.RawMessage
		if json.Unmarshal(stored, &plain) == nil && len(plain) == 1 && plain["$plain"] != nil {
			return plain["$plain"], nil
		}
	}
	encoded, ok := text(stored, "$codec", 1)
	if !ok || v.codec == nil {
		return stored, nil
	}
	data, err := base64.StdEncoding.DecodeString(encoded)
	if err == nil {
		data, err = v.codec.Decode(data)
	}
	if err != nil {
		return nil, fmt.Errorf("the codec failed (%T)", err)
	}
	if !json.Valid(data) {
		return nil, fmt.Errorf("the codec returned something other than JSON")
	}
	return data, nil
}

// text returns a text of an object that has so many keys.
func text(stored json.RawMessage, name string, keys int) (string, bool) {
	var object map[string]json.RawMessage
	if len(stored) == 0 || stored[0] != '{' || json.Unmarshal(stored, &object) != nil {
		return "", false
	}
	var found string
	if len(object) != keys || object[name] == nil || json.Unmarshal(object[name], &found) != nil {
		return "", false
	}
	return found, true
}
