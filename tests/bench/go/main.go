// Nanoseconds of what Go's own packages decide, the least of many rounds: name, package, time.
package main

import (
	"fmt"
	"io"
	"mime"
	"net/http"
	"strings"
	"time"
)

const rounds = 41

// The least time of a call. It gets a number that differs each time, so that no answer can be kept.
func nanoseconds(call func(at int) int) float64 {
	count, least, sum := 100, 1e18, 0
	for round := 0; round < rounds; round++ {
		start := time.Now()
		for at := 0; at < count; at++ {
			sum += call(at)
		}
		spent := float64(time.Since(start).Nanoseconds())
		if each := spent / float64(count); each < least {
			least = each
		}
		if spent < 5e6 {
			count *= 2
		}
	}
	if sum == 0 {
		panic("no work")
	}
	return least
}

func row(name, of string, call func(at int) int) {
	fmt.Printf("%s\t%s\t%.1f\n", name, of, nanoseconds(call))
}

// A response that keeps its status and drops its content.
type response struct {
	fields http.Header
	status int
}

func (it *response) Header() http.Header               { return it.fields }
func (it *response) Write(content []byte) (int, error) { return len(content), nil }
func (it *response) WriteHeader(status int)            { it.status = status }

func main() {
	dates := [2]string{"Sun, 06 Nov 1994 08:49:37 GMT", "Mon, 07 Nov 1994 08:49:37 GMT"}
	row("a date", "net/http", func(at int) int {
		moment, _ := http.ParseTime(dates[at&1])
		return moment.Minute()
	})
	types := [2]string{"text/html; charset=UTF-8", "application/json; charset=\"utf-8\""}
	row("a media type", "mime", func(at int) int {
		essence, _, _ := mime.ParseMediaType(types[at&1])
		return len(essence)
	})
	modified := time.Unix(784111777, 0)
	serve := func(name, field string, values [2]string) {
		var requests [2]*http.Request
		for at, value := range values {
			requests[at], _ = http.NewRequest("HEAD", "http://www.example.com/", nil)
			if field != "" {
				requests[at].Header.Set(field, value)
			}
		}
		content := strings.NewReader(strings.Repeat("a", 10000))
		row(name, "net/http", func(at int) int {
			fields := http.Header{"Etag": {`"xyzzy"`}, "Content-Type": {"text/html"}}
			answer := response{fields: fields}
			content.Seek(0, io.SeekStart)
			http.ServeContent(&answer, requests[at&1], "", modified, content)
			return answer.status
		})
	}
	serve("a response to HEAD", "", [2]string{})
	serve("a response to HEAD with one tag", "If-None-Match", [2]string{`"xyzzy"`, `"xyzz"`})
}
