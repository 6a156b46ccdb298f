// The item of the site (GET /items/ID) by Go's net/http, for tools/try-deploy --figures. Its words are a network, tcp or
// unix, and an address.
package main

import (
	"encoding/json"
	"net"
	"net/http"
	"os"
	"strconv"
	"strings"
)

type item struct {
	ID   uint64   `json:"id"`
	Name string   `json:"name"`
	Tags []string `json:"tags"`
}

func show(w http.ResponseWriter, r *http.Request) {
	id, err := strconv.ParseUint(strings.TrimPrefix(r.URL.Path, "/items/"), 10, 64)
	if err != nil {
		http.NotFound(w, r)
		return
	}
	body, err := json.Marshal(item{id, "item " + strconv.FormatUint(id, 10), []string{}})
	if err != nil {
		http.Error(w, err.Error(), http.StatusInternalServerError)
		return
	}
	w.Header().Set("Cache-Control", "no-cache")
	w.Header().Set("Content-Type", "application/json")
	w.Header().Set("X-Content-Type-Options", "nosniff")
	w.Write(body)
}

func main() {
	http.HandleFunc("/items/", show)
	listener, err := net.Listen(os.Args[1], os.Args[2])
	if err == nil {
		err = http.Serve(listener, nil)
	}
	panic(err)
}
