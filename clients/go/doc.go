// Package sagas has a client and a worker for the HTTP service `sagas serve`.
//
// A client starts sagas and waits for them:
//
//	client, err := sagas.NewClient("http://127.0.0.1:8080", sagas.WithToken("sagas_..."))
//	if err != nil {
//		return err
//	}
//	if _, err := sagas.Start(ctx, client, "trip", "order-1", Trip{To: "Rome"}); err != nil {
//		return err
//	}
//	saga, err := client.Wait(ctx, "order-1")
//	if err != nil {
//		return err
//	}
//	car, err := sagas.Result[Car](saga, "car")
//
// A worker performs steps. A returned nil error means that the effect happened, Fail and Retry that
// there was none. Any other error, a panic included, means that the outcome is unknown:
//
//	worker, err := sagas.NewWorker("http://127.0.0.1:8080", sagas.WithToken("sagas_..."))
//	if err != nil {
//		return err
//	}
//	sagas.Step(worker, "trip", "car", func(ctx context.Context, task sagas.Task[Trip]) (Car, error) {
//		return cars.Book(ctx, task.Input.To, task.IdempotencyKey)
//	})
//	return worker.Run(ctx)
//
// Errors of the service have names, such as ErrNoSuchSaga, and kinds, such as ErrNotFound: use
// errors.Is. A *Problem has the details: use errors.As.
//
// The package needs only the standard library. The package sagas/planner plans and verifies in
// process.
package sagas
