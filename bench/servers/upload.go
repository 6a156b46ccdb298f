// Uploads that are refused: prints the status of each, or what was lost. Words: the front, and sizes in bytes.
package main

import (
	"bytes"
	"fmt"
	"io"
	"net/http"
	"os"
	"strconv"
	"time"
)

func main() {
	client := &http.Client{Timeout: 30 * time.Second}
	for _, word := range os.Args[2:] {
		size, err := strconv.Atoi(word)
		if err != nil {
			os.Exit(2)
		}
		reply, err := client.Post(os.Args[1]+"/upload", "text/plain", bytes.NewReader(make([]byte, size)))
		if err != nil {
			fmt.Println("lost:", err)
			continue
		}
		io.Copy(io.Discard, reply.Body)
		reply.Body.Close()
		fmt.Println(reply.StatusCode)
	}
}
