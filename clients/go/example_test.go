package sagas_test

import (
	"context"
	"errors"
	"fmt"
	"log"
	"os"
	"os/signal"
	"time"

	"sagas"
)

type Trip struct {
	To string `json:"to"`
}

type Car struct {
	ID string `json:"id"`
}

func Example() {
	ctx := context.Background()
	client, err := sagas.NewClient("http://127.0.0.1:8080", sagas.WithToken("sagas_..."))
	if err != nil {
		log.Fatal(err)
	}
	if _, err := sagas.Start(ctx, client, "trip", "order-1", Trip{To: "Rome"}); err != nil {
		log.Fatal(err)
	}
	saga, err := client.Wait(ctx, "order-1")
	if err != nil {
		log.Fatal(err)
	}
	car, err := sagas.Result[Car](saga, "car")
	fmt.Println(saga.Phase, car.ID, err)
}

func ExampleWorker() {
	worker, err := sagas.NewWorker("http://127.0.0.1:8080", sagas.WithToken("sagas_..."))
	if err != nil {
		log.Fatal(err)
	}
	sagas.Step(worker, "trip", "car", func(ctx context.Context, task sagas.Task[Trip]) (Car, error) {
		if task.Input.To == "" {
			return Car{}, sagas.Fail("the trip leads nowhere")
		}
		return Car{ID: task.IdempotencyKey}, nil
	})
	sagas.Compensation(worker, "trip", "car", func(ctx context.Context, task sagas.CompensationTask[Trip, Car]) error {
		fmt.Println("cancel", task.Result.ID)
		return nil
	})
	ctx, stop := signal.NotifyContext(context.Background(), os.Interrupt)
	defer stop()
	if err := worker.Run(ctx); err != nil {
		log.Fatal(err)
	}
}

func ExampleClient_List() {
	client, err := sagas.NewClient("http://127.0.0.1:8080")
	if err != nil {
		log.Fatal(err)
	}
	list := client.List(context.Background(), sagas.Filter{Phase: sagas.Stuck})
	for list.Next() {
		fmt.Println(list.Saga().Key, list.Saga().Started)
	}
	if err := list.Err(); err != nil {
		log.Fatal(err)
	}
}

func ExampleClient_Events() {
	client, err := sagas.NewClient("http://127.0.0.1:8080")
	if err != nil {
		log.Fatal(err)
	}
	events, err := client.Events(context.Background(), sagas.EventFilter{Definition: "trip"})
	if err != nil {
		log.Fatal(err)
	}
	defer events.Close()
	for events.Next() {
		fmt.Println(events.Event().Name, events.Event().Key)
	}
	log.Print(events.Err())
}

func ExampleProblem() {
	client, err := sagas.NewClient("http://127.0.0.1:1", sagas.WithTimeout(time.Millisecond))
	if err != nil {
		log.Fatal(err)
	}
	_, err = client.Get(context.Background(), "order-1")
	var problem *sagas.Problem
	switch {
	case errors.Is(err, sagas.ErrNoSuchSaga):
		fmt.Println("no saga has this key")
	case errors.Is(err, sagas.ErrUnavailable):
		fmt.Println("repeat the request")
	case errors.As(err, &problem):
		fmt.Println(problem.Detail)
	}
	// Output: repeat the request
}
