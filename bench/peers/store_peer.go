// A plain store of goods, to measure beside the server of tools/templates/store: net/http, and SQLite's C library by
// mattn/go-sqlite3. Prepared statements, WAL, and each put is synced. Puts go through one connection, reads through others.
//
//	store_peer FILE PORT
package main

import (
	"bytes"
	"crypto/sha256"
	"database/sql"
	"encoding/hex"
	"encoding/json"
	"errors"
	"io"
	"log"
	"net/http"
	"os"
	"runtime"
	"strings"
	"sync"

	_ "github.com/mattn/go-sqlite3"
)

const (
	create  = "CREATE TABLE IF NOT EXISTS entry (key TEXT PRIMARY KEY NOT NULL, body TEXT NOT NULL) STRICT"
	hasText = "SELECT EXISTS (SELECT 1 FROM entry WHERE key = ?)"
	getText = "SELECT body FROM entry WHERE key = ?"
	putText = "INSERT INTO entry (key, body) VALUES (?, ?) ON CONFLICT(key) DO UPDATE SET body = excluded.body"
	maxBody = 1 << 20
)

// Goods are written with their members in byte order.
type Goods struct {
	Count *uint32 `json:"count"`
	Name  *string `json:"name"`
	Note  *string `json:"note"`
}

// Store has the statements. The lock makes the two of a put one step.
type Store struct {
	writing       sync.Mutex
	get, has, put *sql.Stmt
}

func open(path string) (*Store, error) {
	at := "file:" + path + "?_journal_mode=WAL&_synchronous=FULL&_busy_timeout=5000"
	writer, err := sql.Open("sqlite3", at)
	if err != nil {
		return nil, err
	}
	writer.SetMaxOpenConns(1)
	if _, err := writer.Exec(create); err != nil {
		return nil, err
	}
	readers, err := sql.Open("sqlite3", at)
	if err != nil {
		return nil, err
	}
	readers.SetMaxOpenConns(runtime.NumCPU())
	readers.SetMaxIdleConns(runtime.NumCPU())
	store := new(Store)
	for _, it := range []struct {
		db   *sql.DB
		text string
		to   **sql.Stmt
	}{{readers, getText, &store.get}, {writer, hasText, &store.has}, {writer, putText, &store.put}} {
		if *it.to, err = it.db.Prepare(it.text); err != nil {
			return nil, err
		}
	}
	return store, nil
}

// textOf returns the compact text of the goods that a body means.
func textOf(body []byte) (string, error) {
	var goods Goods
	if err := json.Unmarshal(body, &goods); err != nil {
		return "", err
	}
	if goods.Count == nil || goods.Name == nil {
		return "", errors.New("a member is missing")
	}
	var text bytes.Buffer
	encoder := json.NewEncoder(&text)
	encoder.SetEscapeHTML(false)
	if err := encoder.Encode(&goods); err != nil {
		return "", err
	}
	return strings.TrimSuffix(text.String(), "\n"), nil
}

func (s *Store) store(key, text string) (had bool, err error) {
	s.writing.Lock()
	defer s.writing.Unlock()
	if err = s.has.QueryRow(key).Scan(&had); err == nil {
		_, err = s.put.Exec(key, text)
	}
	return had, err
}

func (s *Store) servePut(w http.ResponseWriter, r *http.Request, key string) {
	body, err := io.ReadAll(http.MaxBytesReader(w, r.Body, maxBody))
	if err != nil {
		w.WriteHeader(http.StatusRequestEntityTooLarge)
		return
	}
	text, err := textOf(body)
	if err != nil {
		w.WriteHeader(http.StatusBadRequest)
		return
	}
	had, err := s.store(key, text)
	switch {
	case err != nil:
		w.WriteHeader(http.StatusServiceUnavailable)
	case had:
		w.WriteHeader(http.StatusNoContent)
	default:
		w.WriteHeader(http.StatusCreated)
	}
}

func (s *Store) serveGet(w http.ResponseWriter, key string) {
	var body string
	err := s.get.QueryRow(key).Scan(&body)
	switch {
	case errors.Is(err, sql.ErrNoRows):
		w.WriteHeader(http.StatusNotFound)
	case err != nil:
		w.WriteHeader(http.StatusServiceUnavailable)
	default:
		sum := sha256.Sum256([]byte(body))
		w.Header().Set("Content-Type", "application/json")
		w.Header().Set("ETag", `"`+hex.EncodeToString(sum[:])+`"`)
		io.WriteString(w, body)
	}
}

func (s *Store) ServeHTTP(w http.ResponseWriter, r *http.Request) {
	key := strings.TrimPrefix(r.URL.Path, "/entries/")
	switch {
	case key == "" || key == r.URL.Path:
		w.WriteHeader(http.StatusNotFound)
	case r.Method == http.MethodPut:
		s.servePut(w, r, key)
	case r.Method == http.MethodGet:
		s.serveGet(w, key)
	default:
		w.WriteHeader(http.StatusMethodNotAllowed)
	}
}

func main() {
	store, err := open(os.Args[1])
	if err != nil {
		log.Fatal(err)
	}
	log.Fatal(http.ListenAndServe("127.0.0.1:"+os.Args[2], store))
}
