// Command example is a real retry: a client calls a server on this machine until it is ready. It is
// busy at first.
package main

import (
	"context"
	"errors"
	"fmt"
	"io"
	"net"
	"os"
	"time"

	zsched "github.com/zsched/zsched/bindings/go"
)

const busy = 3

var fetching = zsched.Retry{Schedule: zsched.MustCompile("((exponential(20) || spaced(100)) && recurs(5))")}

var errBusy = errors.New("503")

// serve sends "busy" to the first clients, and "ready" to the next one.
func serve(server net.Listener) {
	for number := 0; number <= busy; number++ {
		client, err := server.Accept()
		if err != nil {
			return
		}
		text := "ready"
		if number < busy {
			text = "busy"
		}
		io.WriteString(client, text)
		client.Close()
	}
}

// fetch returns the server's text, and errBusy if it is busy.
func fetch(address string) (string, error) {
	client, err := net.Dial("tcp", address)
	if err != nil {
		return "", err
	}
	defer client.Close()
	text, err := io.ReadAll(client)
	if err == nil && string(text) == "busy" {
		err = errBusy
	}
	return string(text), err
}

func main() {
	server, err := net.Listen("tcp", "127.0.0.1:0")
	if err != nil {
		panic(err)
	}
	go serve(server)
	begun, attempts := time.Now(), 0
	text, err := zsched.RetryValue(context.Background(), &fetching, func(context.Context) (string, error) {
		attempts++
		return fetch(server.Addr().String())
	})
	fmt.Println(text, "after", attempts, "attempts")
	if err != nil || text != "ready" || attempts != busy+1 || time.Since(begun) < 140*time.Millisecond {
		fmt.Println(err, time.Since(begun))
		os.Exit(1)
	}
}
