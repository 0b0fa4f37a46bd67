// Takes requests, and prints of each one the client's port, the method, and target and content in hexadecimal.
package main

import (
	"encoding/hex"
	"io"
	"log"
	"net"
	"net/http"
	"os"
)

func take(answer http.ResponseWriter, request *http.Request) {
	content, err := io.ReadAll(request.Body)
	if err != nil {
		panic(http.ErrAbortHandler)
	}
	_, port, _ := net.SplitHostPort(request.RemoteAddr)
	os.Stdout.WriteString(port + " " + request.Method + " " + hex.EncodeToString([]byte(request.RequestURI)) + " " +
		hex.EncodeToString(content) + "\n")
	io.WriteString(answer, "ok")
}

func main() {
	log.SetOutput(io.Discard)
	http.ListenAndServe(os.Args[1], http.HandlerFunc(take))
}
