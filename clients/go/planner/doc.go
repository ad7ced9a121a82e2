// Package planner plans, verifies, audits and draws sagas in process, by the library libsagas.
//
// It needs cgo and the build tag sagas_planner:
//
//	go build -tags sagas_planner
//
// The library is the one in the folder dist of the checkout. With the further tag sagas_system, it is
// the one that pkg-config finds.
//
// The texts, in and out, are those of the program sagas. Definitions are in TOML, and cases, answers
// and logs in JSON. Any number of goroutines may call at once.
//
//	answer, err := planner.Plan(definition, sagaCase)
//	if err != nil {
//		return err
//	}
//	verdict, err := planner.Check(definition, sagaCase, answer.Certificate)
package planner
