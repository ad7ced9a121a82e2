//go:build sagas_planner && sagas_system

package planner

// #cgo pkg-config: sagas
import "C"
