//go:build sagas_planner && !sagas_system

package planner

// #cgo linux,amd64 CFLAGS: -I${SRCDIR}/../../../dist
// #cgo linux,amd64 LDFLAGS: ${SRCDIR}/../../../dist/libsagas.a
// #cgo linux,arm64 CFLAGS: -I${SRCDIR}/../../../dist
// #cgo linux,arm64 LDFLAGS: ${SRCDIR}/../../../dist/aarch64/libsagas.a
import "C"
