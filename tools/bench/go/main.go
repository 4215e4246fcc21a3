// The server of tools/live/bench that ./serve is measured beside: Go's golang.org/x/net/webdav over HTTP, its files and
// locks in memory. It keeps nothing. usage: main ADDRESS:PORT
package main

import (
	"log"
	"net/http"
	"os"

	"golang.org/x/net/webdav"
)

func main() {
	handler := &webdav.Handler{FileSystem: webdav.NewMemFS(), LockSystem: webdav.NewMemLS()}
	log.Fatal(http.ListenAndServe(os.Args[1], handler))
}
