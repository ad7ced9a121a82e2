//go:build sagas_planner

package planner_test

import (
	"errors"
	"fmt"
	"os"
	"strings"
	"testing"

	"sagas/planner"
)

const examples = "../../../examples/"

func read(t testing.TB, name string) []byte {
	t.Helper()
	text, err := os.ReadFile(examples + name)
	if err != nil {
		t.Fatal(err)
	}
	return text
}

func TestPlans(t *testing.T) {
	for _, one := range []struct {
		name     string
		feasible bool
		cost     int64
	}{{"trip", true, 38}, {"licence", false, 0}} {
		definition, sagaCase := read(t, one.name+".toml"), read(t, one.name+".case.json")
		answer, err := planner.Plan(definition, sagaCase)
		if err != nil || answer.Feasible != one.feasible || answer.Cost != one.cost {
			t.Fatalf("%s: %+v, %v", one.name, answer, err)
		}
		verdict, err := planner.Check(definition, sagaCase, answer.Certificate)
		if err != nil || !verdict.Valid || verdict.Blocked == one.feasible || verdict.Cost != one.cost {
			t.Fatalf("%s: %+v, %v", one.name, verdict, err)
		}
		if text, err := planner.DrawAnswer(definition, sagaCase, answer.Certificate); err != nil || !strings.HasPrefix(text, "digraph") {
			t.Fatalf("%s: %q, %v", one.name, text, err)
		}
		wrong := []byte(strings.Replace(string(answer.Certificate), `"cost":38`, `"cost":37`, 1))
		if one.feasible {
			verdict, err = planner.Check(definition, sagaCase, wrong)
			if err != nil || verdict.Valid || !strings.HasPrefix(verdict.Text, "no ") {
				t.Fatalf("%+v, %v", verdict, err)
			}
			var fault *planner.FaultError
			if _, err := planner.DrawAnswer(definition, sagaCase, wrong); !errors.As(err, &fault) {
				t.Fatal(err)
			}
		}
	}
}

func TestDrawings(t *testing.T) {
	definition := read(t, "trip.toml")
	for _, draw := range []func() (string, error){
		func() (string, error) { return planner.Draw(definition) },
		func() (string, error) { return planner.DrawCase(definition, read(t, "trip.case.json")) },
	} {
		if text, err := draw(); err != nil || !strings.HasPrefix(text, "digraph") {
			t.Fatalf("%q, %v", text, err)
		}
	}
}

func TestAudits(t *testing.T) {
	log, definition := read(t, "trip.log"), read(t, "trip.toml")
	found, err := planner.Audit(log, definition)
	if err != nil || !found.Valid || found.Sagas == 0 || found.Events == 0 {
		t.Fatalf("%+v, %v", found, err)
	}
	lines := strings.SplitAfter(string(log), "\n")
	found, err = planner.Audit([]byte(strings.Join(append(lines[:2:2], lines[3:]...), "")), definition)
	if err != nil || found.Valid || !strings.HasPrefix(found.Text, "no ") {
		t.Fatalf("%+v, %v", found, err)
	}
}

func TestTextsThatAreNotOfTheirForm(t *testing.T) {
	var wrong *planner.FormatError
	for _, call := range []func() error{
		func() error { _, err := planner.Plan([]byte("nothing"), nil); return err },
		func() error { _, err := planner.Plan(nil, nil); return err },
		func() error { _, err := planner.Check(read(t, "trip.toml"), []byte("{}"), nil); return err },
		func() error { _, err := planner.Audit([]byte("?"), read(t, "trip.toml")); return err },
		func() error { _, err := planner.Draw([]byte{0}); return err },
	} {
		if err := call(); !errors.As(err, &wrong) || wrong.Text == "" {
			t.Error(err)
		}
	}
}

func ExamplePlan() {
	definition, err := os.ReadFile(examples + "trip.toml")
	if err != nil {
		panic(err)
	}
	sagaCase, err := os.ReadFile(examples + "trip.case.json")
	if err != nil {
		panic(err)
	}
	answer, err := planner.Plan(definition, sagaCase)
	if err != nil {
		panic(err)
	}
	verdict, err := planner.Check(definition, sagaCase, answer.Certificate)
	fmt.Println(answer.Feasible, answer.Cost, verdict.Text, err)
	// Output: true 38 least 38 <nil>
}
