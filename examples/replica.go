// A replica for Go: a refusal is an error, and Close frees it.
//
//	CGO_CFLAGS=-I$PWD/include CGO_LDFLAGS=$PWD/release/libjcrdt.a go run examples/replica.go
//
// The program keeps each operation's line, and stores it before it sends it: see jcrdt.h and store.c.
package main

/*
#include "jcrdt.h"
*/
import "C"

import (
	"errors"
	"fmt"
	"os"
	"strings"
	"unsafe"
)

// Refused says that nothing was changed. Number is that of docs/FORMATS.md.
type Refused struct {
	Number uint64
	Why    string
}

func (it Refused) Error() string { return fmt.Sprintf("refused: %d", it.Number) }

// Answer is a reply's line, and the line of the operation that was made, if one was.
type Answer struct{ Reply, Operation string }

// Replica is one that a goroutine at a time uses.
type Replica struct{ handle C.jcrdt }

// at gives where the bytes of a text are: nowhere is no place, not even of no bytes.
func at(text string) (*C.char, C.size_t) {
	bytes := append([]byte(text), 0)
	return (*C.char)(unsafe.Pointer(&bytes[0])), C.size_t(len(text))
}

// Open opens a new replica, or the one of a log: its lines, each with a newline.
func Open(name, log string) (*Replica, error) {
	var replica Replica
	var fault C.jcrdt_fault
	its, itsLength := at(name)
	lines, linesLength := at(log)
	if number := C.jcrdt_open(&replica.handle, its, itsLength, lines, linesLength, &fault); number != 0 {
		return nil, Refused{uint64(number), fmt.Sprintf("line %d of the log", uint64(fault.place))}
	}
	return &replica, nil
}

// Ask answers a request.
func (replica *Replica) Ask(request string) (Answer, error) {
	text := make([]byte, 1024)
	line, length := at(request)
	whole := int(C.jcrdt_ask(&replica.handle, line, length, (*C.char)(unsafe.Pointer(&text[0])), C.size_t(len(text))))
	if whole == 0 {
		return Answer{}, errors.New("the replica is closed, or memory lacks for the text")
	}
	if whole > len(text) {
		text = make([]byte, whole)
		C.jcrdt_again(&replica.handle, (*C.char)(unsafe.Pointer(&text[0])), C.size_t(whole))
	}
	reply, operation, _ := strings.Cut(string(text[:whole]), "\n")
	if strings.HasPrefix(reply, `["no",`) {
		refused := Refused{Why: reply}
		fmt.Sscanf(reply, `["no",%d`, &refused.Number)
		return Answer{}, refused
	}
	return Answer{reply, strings.TrimSuffix(operation, "\n")}, nil
}

// Close frees the replica. It isn't asked any more.
func (replica *Replica) Close() { C.jcrdt_close(&replica.handle) }

// must ends the program where something is refused that isn't to be.
func must[T any](found T, err error) T {
	if err != nil {
		fmt.Fprintln(os.Stderr, err)
		os.Exit(1)
	}
	return found
}

func main() {
	ada, bob := must(Open("ada", "")), must(Open("bob", ""))
	defer ada.Close()
	defer bob.Close()
	edit := func(replica *Replica, requests ...string) (log []string) {
		for _, request := range requests {
			log = append(log, must(replica.Ask(request)).Operation)
		}
		return log
	}
	deliver := func(replica *Replica, log []string) {
		for _, line := range log {
			must(replica.Ask(`["deliver",` + line + `]`))
		}
	}
	log := edit(ada, `["assign",[0,"title"],"Plan"]`, `["assign",[0,"steps"],[]]`, `["insert",[0,"steps",0],"pack"]`)
	deliver(bob, log)
	other := edit(bob, `["assign",[0,"title"],"Oslo"]`) // both at once: the title has two values
	log = append(log, edit(ada, `["assign",[0,"title"],"Bergen"]`)...)
	deliver(ada, other)
	deliver(bob, log)
	shown := must(ada.Ask(`["show",[0]]`)).Reply
	fmt.Println(shown)
	if shown == must(bob.Ask(`["show",[0]]`)).Reply {
		fmt.Println("both show it")
	} else {
		fmt.Println("they differ")
	}
	_, err := ada.Ask(`["delete",[0,"steps",7]]`)
	fmt.Println(err)
}
