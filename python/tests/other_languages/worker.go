// A worker made from openapi.json alone, with Go's own library.
//
//	go run worker.go URL TOKEN
package main

import (
	"bytes"
	"encoding/json"
	"fmt"
	"io"
	"log"
	"net/http"
	"os"
	"time"
)

type task struct {
	Name      string                     `json:"name"`
	AttemptID string                     `json:"attempt_id"`
	Lease     string                     `json:"lease"`
	Key       string                     `json:"idempotency_key"`
	Input     json.RawMessage            `json:"input"`
	Results   map[string]json.RawMessage `json:"results"`
}

type claimed struct {
	Tasks            []task  `json:"tasks"`
	HeartbeatSeconds float64 `json:"heartbeat_seconds"`
	RepeatStatuses   []int   `json:"repeat_statuses"`
}

var repeat = map[int]bool{429: true, 503: true}

// post repeats a request as long as the service says that this helps.
func post(path string, body any, answer any) int {
	data, _ := json.Marshal(body)
	for {
		request, _ := http.NewRequest("POST", os.Args[1]+path, bytes.NewReader(data))
		request.Header.Set("Content-Type", "application/json")
		request.Header.Set("Authorization", "Bearer "+os.Args[2])
		response, err := http.DefaultClient.Do(request)
		if err == nil && !repeat[response.StatusCode] {
			defer response.Body.Close()
			text, _ := io.ReadAll(response.Body)
			if err := json.Unmarshal(text, answer); err != nil {
				log.Fatal(path, string(text))
			}
			return response.StatusCode
		}
		time.Sleep(300 * time.Millisecond)
	}
}

func main() {
	steps := map[string]any{"steps": []string{"trip/car", "trip/car/undo"}, "wait": 5, "lease": 3}
	for {
		var found claimed
		if status := post("/v1/tasks/claim", steps, &found); status != 200 {
			log.Fatal("claim: ", status)
		}
		for _, status := range found.RepeatStatuses {
			repeat[status] = true
		}
		for _, one := range found.Tasks {
			base, stop := "/v1/tasks/"+one.AttemptID+"/", make(chan bool)
			go func(every time.Duration) {
				for {
					select {
					case <-stop:
						return
					case <-time.After(every):
						var held map[string]any
						post(base+"heartbeat", map[string]any{"lease": one.Lease, "seconds": 3}, &held)
					}
				}
			}(time.Duration(found.HeartbeatSeconds * float64(time.Second)))
			time.Sleep(4 * time.Second) // longer than a lease
			close(stop)
			var kept map[string]any
			result := map[string]any{"by": "go", "after": one.Results["flight"]}
			status := post(base+"complete", map[string]any{"lease": one.Lease, "result": result}, &kept)
			fmt.Println(one.Name, status)
		}
	}
}
