// Package lynx is a client of a Lynx service, on Go's standard library alone.
//
//	bank, err := lynx.Open("stores", nil)           // the service over the stores of this folder, and its set
//	paid, err := bank.Begin("pay", 30)              // &Begun{Chain: 0:1, Stamp: 2, Results: [100], Again: false, Number: 1}
//	paid.Named["x"]                                 // 100: results by the names that the set gives them
//	done, err := bank.Look(paid.Chain, 1, 5*time.Second) // &Found{Stamp: 3, Results: []}, or ErrAbsent after five seconds
//	all, err := paid.Wait(5 * time.Second)          // the results of all its hops, or ErrAbsent: [[100] []]
//	value, err := bank.Read("acct", 1000)           // 30: what a cell holds, of a service that tells its status
//	err = bank.Shut()                               // the service checks all that it told, and ends
//
// A request is known by its client's id and its number: whatever is asked under the same id and number is done once, and
// a begin that was lost on its way is asked again under its number by itself. A client of your own keeps both where it
// keeps what it asks for (Options{Client: 7}, bank.BeginNumbered(12, "pay", 30)): after a restart it asks again under the
// old number and gets the recorded answer, with Again true. A client with an id of its own doesn't count by itself, since
// each process would count from 1 again: use BeginNumbered, or give First, the first number that is free.
//
// The folder may be a link to that of the books that are served now. A begin whose answer was lost in books that are closed
// (lynx carry) isn't asked again in the next ones, which have no record of it: it is ErrBooksClosed.
//
// lynx.Dial(7000, set, nil) asks at a port by the text of a set of its own. A request tells a program by its number, so
// that set is to be the service's, or one that it extends: Options{Status: 7001} looks whether it is.
//
// A first hop that refuses is the error *Refused, and every other fault an *Error, which errors.Is tells by its kind:
//
//	var refused *lynx.Refused
//	switch {
//	case errors.As(err, &refused): // tell the user: refused.Text is the need as the set has it
//	case errors.Is(err, lynx.ErrBusy), errors.Is(err, lynx.ErrLost): // ask again, under the same number
//	}
//
// A Client belongs to one goroutine at a time. docs/FORMATS.md has the bytes.
package lynx

import (
	"bufio"
	"crypto/rand"
	"encoding/binary"
	"encoding/json"
	"errors"
	"fmt"
	"io"
	"io/fs"
	"net"
	"net/http"
	"net/url"
	"os"
	"path/filepath"
	"strconv"
	"strings"
	"time"
)

// Version is that of Lynx to which the client belongs.
const Version = "0.1.0"

const (
	maxBodyBytes = 2048

	idle = 500 * time.Millisecond

	tagRequest = 0x01
	tagLook    = 0x02
	tagQuit    = 0x03
	tagShut    = 0x04
	tagAnswer  = 0x11
	tagLooked  = 0x12
	tagBye     = 0x13
)

// The kinds of faults, for errors.Is.
var (
	// ErrClash: this client used this number for another request.
	ErrClash = errors.New("clash")
	// ErrWrong: the request doesn't fit its program, or there is no such program. Nothing was done; Reason says why. Of a
	// read it is the service's sentence: there is no such table, say.
	ErrWrong = errors.New("wrong")
	// ErrOutside: an argument isn't in its parameter's range. It is ErrWrong too.
	ErrOutside = errors.New("outside-range")
	// ErrFull: the server has all the entries that it may have.
	ErrFull = errors.New("full")
	// ErrBusy: a chain begun at this server has still to return there. Ask again later, under any number.
	ErrBusy = errors.New("busy")
	// ErrStopped: the server's store failed. It answers nothing until the service is started again.
	ErrStopped = errors.New("stopped")
	// ErrWanting: the service had no memory for it. Nothing was done.
	ErrWanting = errors.New("memory")
	// ErrLost: the connection was lost as often as was tried. Whether the request was done isn't known: ask again under
	// its number.
	ErrLost = errors.New("lost")
	// ErrByeLost: the end was asked for, and the service's bye was lost. It ends, unless what was asked didn't come there:
	// then it still listens.
	ErrByeLost = errors.New("bye lost")
	// ErrNoService: nothing in the folder tells of a service. None runs over its stores, or it is about to begin or to end.
	ErrNoService = errors.New("no-service")
	// ErrOtherSet: the service serves a set that doesn't extend the client's. The same numbers would ask for other
	// programs.
	ErrOtherSet = errors.New("other-set")
	// ErrNoStatus: the service tells no status, by which cells and requests are read. It is served without --status, or the
	// client was given a port and no Status.
	ErrNoStatus = errors.New("no-status")
	// ErrBooksClosed: the books were closed before the answer came, and the folder leads to the next ones, which have no
	// record of it. errors.As gives the *BooksClosed.
	ErrBooksClosed = errors.New("books-closed")
	// ErrNoNumber: Begin was called of a client that has an ID of its own and no First. Each process would count from 1
	// again, and get the answers of the one before: use BeginNumbered, or give First.
	ErrNoNumber = errors.New("no-number")
	// ErrAbsent: the hop isn't done yet.
	ErrAbsent = errors.New("absent")
)

// Error tells why a request was not done.
type Error struct {
	Reason   string // the word of docs/FORMATS.md
	Number   uint64 // the request's: what is asked again is asked under it
	Numbered bool   // whether it had one
	kind     error
	cause    error
}

func fault(kind, cause error) *Error {
	return &Error{Reason: kind.Error(), kind: kind, cause: cause}
}

func (e *Error) Error() string {
	text := "lynx: " + e.Reason
	if e.cause != nil {
		text += ": " + e.cause.Error()
	}
	return text
}

// Is tells whether the fault is of this kind.
func (e *Error) Is(target error) bool {
	return target == e.kind || target == ErrWrong && e.kind == ErrOutside
}

// Unwrap gives what the system said, where it said something.
func (e *Error) Unwrap() error { return e.cause }

// BooksClosed tells which request wasn't answered before the books numbered Old were closed: the folder leads to those
// numbered New, which have no record of it. It was done or not: lynx find in the old folder tells. This client never asks for
// it in other books: what wasn't done is begun under a new number.
type BooksClosed struct {
	Old, New uint64
	Client   uint64 // the request's
	Number   uint64 // the request's
	Numbered bool   // whether the number is known: not where a chain was looked for that no begin told
	Chain    Chain  // the chain that was looked for, with its Books; they are 0 where a begin was asked for
}

func (b *BooksClosed) Error() string {
	what := "the look for chain " + b.Chain.String()
	if b.Numbered {
		what = fmt.Sprintf("request %d of client %d", b.Number, b.Client)
	}
	return "the books were closed before the answer to " + what + " came: `lynx find` in the old folder tells what became of it"
}

// Refused is the answer of a first hop that refuses: this need of it, counted from 0, wasn't met. It is recorded under the
// request's number, as a begin is.
type Refused struct {
	Need   int
	Stamp  uint64
	Again  bool
	Number uint64
	Text   string // the need as the set has it
}

func (r *Refused) Error() string { return fmt.Sprintf("lynx: refused: need %d: %s", r.Need, r.Text) }

// Chain is a chain's name: its origin, and its index among the chains that began there. Books is the number of the books that
// have it, or 0 where that isn't known: others may have another chain of this name.
type Chain struct {
	Origin int
	Index  uint64
	Books  uint64
}

func (c Chain) String() string { return fmt.Sprintf("%d:%d", c.Origin, c.Index) }

// bare gives the name without its books.
func (c Chain) bare() Chain { return Chain{Origin: c.Origin, Index: c.Index} }

// ParseChain gives the chain of a text like 0:7.
func ParseChain(text string) (Chain, error) {
	origin, index, _ := strings.Cut(text, ":")
	first, firstFault := strconv.ParseUint(origin, 10, 8)
	second, secondFault := strconv.ParseUint(index, 10, 64)
	if firstFault != nil || secondFault != nil {
		return Chain{}, fmt.Errorf("lynx: not a chain: %q", text)
	}
	return Chain{Origin: int(first), Index: second}, nil
}

// Begun says that the chain began, and what its first hop gave: Named has the results by what the set calls them. Again: it
// had begun before, by this very request.
type Begun struct {
	Chain   Chain
	Stamp   uint64
	Results []uint64
	Again   bool
	Number  uint64
	Named   map[string]uint64
	client  *Client
	hops    int
}

// Wait gives the results of all hops of the chain, hop 0 first, once the last is done, or ErrAbsent where it isn't in time.
func (b *Begun) Wait(within time.Duration) ([][]uint64, error) {
	until := time.Now().Add(within)
	results := [][]uint64{b.Results}
	for hop := 1; hop < b.hops; hop++ {
		found, err := b.client.Look(b.Chain, hop, time.Until(until))
		var closed *BooksClosed
		if errors.As(err, &closed) {
			return nil, b.client.closedBy(closed.Old, b.Number, true, b.Chain)
		} else if err != nil {
			return nil, err
		}
		results = append(results, found.Results)
	}
	return results, nil
}

// Found says that the hop is done, with these results.
type Found struct {
	Stamp   uint64
	Results []uint64
}

// Cell is a cell of a table: its key, and what it holds.
type Cell struct {
	Key, Value uint64
}

// Recorded is what a server recorded of a request: its program and arguments, and the chain that it began with the results
// of its first hop; or, where that refused, the need that wasn't met, counted from 0.
type Recorded struct {
	Server    int
	Stamp     uint64
	Program   string
	Arguments []uint64
	Refused   bool
	Chain     Chain    // where it began
	Results   []uint64 // where it began
	Need      int      // where it was refused
}

// Program is a program of a set: its number, its parameters, how many hops it has, and of its first hop the names of its
// results and the needs.
type Program struct {
	Number     int
	Parameters []string
	Hops       int
	Names      []string
	Needs      []string
}

func (p *Program) add(words []string) {
	switch {
	case words[0] == "hop":
		p.Hops++
	case p.Hops == 1 && (words[0] == "get" || words[0] == "let") && len(words) > 1:
		p.Names = append(p.Names, words[1])
	case p.Hops == 1 && words[0] == "need":
		p.Needs = append(p.Needs, strings.Join(words, " "))
	}
}

// Programs gives the programs of a set's text, by name. The text is not judged: the service has judged its own.
func Programs(set string) map[string]Program {
	programs := map[string]Program{}
	var name string
	var program *Program
	for _, line := range strings.Split(set, "\n") {
		words := strings.Split(line, " ")
		switch {
		case words[0] == "program" && len(words) > 1:
			name, program = words[1], &Program{Number: len(programs), Parameters: words[2:]}
		case line == "end" && program != nil:
			programs[name], program = *program, nil
		case program != nil:
			program.add(words)
		}
	}
	return programs
}

// ServedSet gives the text of the set of the service that tells its status at this port.
func ServedSet(host string, status int, timeout time.Duration) (string, error) {
	asked, err := readerAt(host, status, timeout)
	if err != nil {
		return "", err
	}
	defer asked.stream.Close()
	return asked.set()
}

// reader is a connection to the port at which a service tells its status.
type reader struct {
	stream  net.Conn
	from    *bufio.Reader
	address string
	timeout time.Duration
}

func readerAt(host string, status int, timeout time.Duration) (*reader, error) {
	address := net.JoinHostPort(host, strconv.Itoa(status))
	stream, err := net.DialTimeout("tcp", address, timeout)
	if err != nil {
		return nil, err
	}
	return &reader{stream, bufio.NewReader(stream), address, timeout}, nil
}

// answerAt gives the status and the text that are answered at a path.
func (r *reader) answerAt(path string) (status int, text []byte, err error) {
	asked, err := http.NewRequest(http.MethodGet, "http://"+r.address+path, nil)
	if err != nil {
		return 0, nil, err
	}
	if err = r.stream.SetDeadline(time.Now().Add(r.timeout)); err != nil {
		return 0, nil, err
	}
	if err = asked.Write(r.stream); err != nil {
		return 0, nil, err
	}
	answer, err := http.ReadResponse(r.from, asked)
	if err != nil {
		return 0, nil, err
	}
	defer answer.Body.Close()
	text, err = io.ReadAll(answer.Body)
	return answer.StatusCode, text, err
}

// set gives the text of the set of the service.
func (r *reader) set() (string, error) {
	status, text, err := r.answerAt("/set")
	if err == nil && status != http.StatusOK {
		err = errNoAnswer
	}
	return string(text), err
}

// told reads the JSON at a path. What can't be told is an *Error with the service's sentence.
func (r *reader) told(path string, read func(text []byte) error) error {
	status, text, err := r.answerAt(path)
	sentence := strings.TrimSuffix(string(text), "\n")
	switch {
	case err != nil:
		return err
	case status == http.StatusServiceUnavailable && sentence == "server stopped":
		return fault(ErrStopped, nil)
	case status == http.StatusServiceUnavailable:
		return fault(ErrWanting, nil)
	case status == http.StatusBadRequest || status == http.StatusNotFound:
		return &Error{Reason: sentence, kind: ErrWrong}
	case status != http.StatusOK:
		return errNoAnswer
	}
	return read(text)
}

// Service gives the port of the service over the stores of the folder, and the text of the set that it serves.
func Service(folder string) (port int, set string, err error) {
	found, err := noticeOf(folder)
	return found.port, found.set, err
}

// portOf gives the port of a line of a notice behind its word, 0 where the line has another.
func portOf(line, word string) int {
	text, found := cutPrefix(line, word+" 127.0.0.1:")
	port, err := strconv.Atoi(text)
	if !found || err != nil {
		return 0
	}
	return port
}

// textOf gives the text of a file. Where that is a pipe, say, or no ASCII, there is none: a pipe isn't opened, since it would
// wait for a writer.
func textOf(path string) ([]byte, error) {
	about, err := os.Stat(path)
	if err != nil {
		return nil, err
	}
	if !about.Mode().IsRegular() {
		return nil, fs.ErrNotExist
	}
	data, err := os.ReadFile(path)
	for _, each := range data {
		if each >= 0x80 {
			return nil, fs.ErrNotExist
		}
	}
	return data, err
}

// isThere tells whether there is something of this name.
func isThere(path string) bool {
	_, err := os.Lstat(path)
	return err == nil
}

// booksOf gives the number of the books of a folder: 1 where it has no file of them, and 0 where that tells no number.
func booksOf(folder string) (uint64, error) {
	path := filepath.Join(folder, "books")
	if !isThere(path) {
		return 1, nil
	}
	data, err := textOf(path)
	if err != nil && !errors.Is(err, fs.ErrNotExist) {
		return 0, err
	}
	line, _, _ := strings.Cut(string(data), "\n")
	digits, found := cutPrefix(line, "books ")
	number, fault := strconv.ParseUint(digits, 10, 64)
	if !found || fault != nil {
		return 0, nil
	}
	return number, nil
}

// isCarried tells whether the books of a folder are closed. It has no service any more: another may have the port of its
// notice.
func isCarried(folder string) bool { return isThere(filepath.Join(folder, "carried")) }

// notice is what a folder tells of its service: its port, that of its status or 0, the text of its set, and the number of the
// books. The folder is the real one, which a link led to.
type notice struct {
	folder       string
	port, status int
	set          string
	books        uint64
}

// noticeOf gives what the folder tells of its service. A link is resolved once, so that all is of the same books.
func noticeOf(folder string) (found notice, err error) {
	var data []byte
	if found.folder, err = filepath.EvalSymlinks(folder); err == nil {
		data, err = textOf(filepath.Join(found.folder, "service"))
	}
	if errors.Is(err, fs.ErrNotExist) {
		return notice{}, fault(ErrNoService, errors.New(folder))
	} else if err != nil {
		return notice{}, err
	}
	head, set, whole := strings.Cut(string(data), "--\n")
	found.set = set
	for _, line := range strings.Split(head, "\n") {
		if port := portOf(line, "listening"); port != 0 {
			found.port = port
		} else if port := portOf(line, "status"); port != 0 {
			found.status = port
		}
	}
	if found.books, err = booksOf(found.folder); err != nil {
		return notice{}, err
	}
	if !whole || found.port == 0 || found.books == 0 || isCarried(found.folder) {
		return notice{}, fault(ErrNoService, errors.New(folder))
	}
	return found, nil
}

func cutPrefix(text, prefix string) (rest string, found bool) {
	return strings.TrimPrefix(text, prefix), strings.HasPrefix(text, prefix)
}

// parts are the version and the count of servers of a set's text, and the text of each of its tables and programs.
type parts struct {
	numbers          []uint64
	tables, programs []string
}

func partsOf(set string) parts {
	var found parts
	open := &found.tables
	for _, line := range strings.SplitAfter(set, "\n") {
		switch {
		case strings.HasPrefix(line, "table "):
			open = &found.tables
			*open = append(*open, line)
		case strings.HasPrefix(line, "program "):
			open = &found.programs
			*open = append(*open, line)
		case len(*open) > 0:
			(*open)[len(*open)-1] += line
		default:
			_, digits, _ := strings.Cut(strings.TrimSpace(line), " ")
			number, _ := strconv.ParseUint(digits, 10, 64)
			found.numbers = append(found.numbers, number)
		}
	}
	return found
}

// Extends tells whether the set of the text next has all that the one of old has, under the same numbers. Neither is judged.
func Extends(next, old string) bool {
	has, had := partsOf(next), partsOf(old)
	for place, number := range had.numbers {
		if place >= len(has.numbers) || has.numbers[place] < number {
			return false
		}
	}
	return beginsWith(has.tables, had.tables) && beginsWith(has.programs, had.programs)
}

func beginsWith(all, first []string) bool {
	if len(all) < len(first) {
		return false
	}
	for place, text := range first {
		if all[place] != text {
			return false
		}
	}
	return true
}

// Options of a client; those that are 0 are as it says here.
type Options struct {
	Client  uint64        // its id; drawn at random
	First   uint64        // the first number that it gives a request by itself; 1, or none where Client isn't 0
	Tries   int           // how often a request is asked while connections are lost; 5
	Timeout time.Duration // how long it waits for the service each time; 30 seconds
	Host    string        // 127.0.0.1
	Status  int           // the port at which the service tells its status, by which the sets are compared; none
}

// Client is a client of a service, made by Open or Dial. A connection that is lost is made again, with growing pauses. A
// service that is begun anew over a folder may have another port, and a set that extends the one before; one of another
// set is ErrOtherSet.
//
// Each time that it connects, it follows a link anew. Begins that weren't sent, reads and finds go on in the next books. A
// begin whose answer isn't known, and a look for a chain of the books before, is ErrBooksClosed, also when it is asked once
// more.
type Client struct {
	ID        uint64             // its own, as in Options
	Set       string             // the text of its set
	Programs  map[string]Program // the programs of the set
	Books     uint64             // the number of the books that the folder led to when it was read last, 0 at a port
	options   Options
	folder    string
	port      int
	next      uint64
	owed      map[Chain]int     // the last hop of each chain that it began, until it has seen that hop
	closed    map[Chain]uint64  // the books of each chain that was owed when they were closed, by its bare name
	unsettled error             // what Settle tells of one of these
	unknown   map[uint64]uint64 // the books in which it sent a request first, by its number: it lost the answer
	stream    net.Conn
	used      time.Time // when the stream was used last
	reader    *reader   // at the port of the status
	readBooks uint64    // those of the reader
}

// Open gives a client of the service over the stores of a folder, by the set that it serves. It connects with its first
// request.
func Open(folder string, options *Options) (*Client, error) {
	found, err := noticeOf(folder)
	if err != nil {
		return nil, err
	}
	client, err := Dial(found.port, found.set, options)
	if err == nil {
		client.folder, client.Books = folder, found.books
	}
	return client, err
}

// Dial gives a client of the service at a port, by the text of a set. It connects with its first request.
func Dial(port int, set string, options *Options) (*Client, error) {
	chosen := Options{}
	if options != nil {
		chosen = *options
	}
	if chosen.Client == 0 {
		var drawn [8]byte
		if _, err := rand.Read(drawn[:]); err != nil {
			return nil, err
		}
		chosen.Client = binary.BigEndian.Uint64(drawn[:])
		if chosen.First == 0 {
			chosen.First = 1
		}
	}
	if chosen.Tries <= 0 {
		chosen.Tries = 5
	}
	if chosen.Timeout == 0 {
		chosen.Timeout = 30 * time.Second
	}
	if chosen.Host == "" {
		chosen.Host = "127.0.0.1"
	}
	return &Client{ID: chosen.Client, Set: set, Programs: Programs(set), options: chosen, port: port,
		next: chosen.First, owed: map[Chain]int{}, closed: map[Chain]uint64{}, unknown: map[uint64]uint64{}}, nil
}

// Begin begins a chain of the program, under the next number of the client's own. A client with an ID of its own and no
// First has none: ErrNoNumber.
func (c *Client) Begin(program string, arguments ...uint64) (*Begun, error) {
	if c.options.First == 0 {
		return nil, fault(ErrNoNumber, errors.New("use BeginNumbered, or give First"))
	}
	number := c.next
	c.next++
	return c.BeginNumbered(number, program, arguments...)
}

// SentIn notes that an earlier process asked under this number in these books: it is asked in no others, but is
// ErrBooksClosed there. Books 0, which a client at a port has, say nothing of that.
func (c *Client) SentIn(number, books uint64) {
	if _, sent := c.unknown[number]; !sent && books != 0 {
		c.unknown[number] = books
	}
}

// BeginNumbered begins a chain of the program, under this number. A first hop that refuses is the error *Refused, every
// other answer an *Error with the number.
func (c *Client) BeginNumbered(number uint64, name string, arguments ...uint64) (*Begun, error) {
	begun, err := c.begin(number, name, arguments)
	var failed *Error
	if errors.As(err, &failed) {
		failed.Number, failed.Numbered = number, true
	}
	if err != nil {
		return nil, err
	}
	delete(c.closed, begun.Chain.bare())
	if begun.hops > 1 {
		c.owed[begun.Chain] = begun.hops - 1
	}
	return begun, nil
}

func (c *Client) begin(number uint64, name string, arguments []uint64) (begun *Begun, err error) {
	program, known := c.Programs[name]
	if !known {
		return nil, &Error{Reason: "unknown-program", kind: ErrWrong}
	}
	if len(arguments) != len(program.Parameters) {
		return nil, &Error{Reason: "arg-count", kind: ErrWrong}
	}
	item := binary.BigEndian.AppendUint64(nil, c.ID)
	item = binary.BigEndian.AppendUint64(item, number)
	item = append(item, byte(program.Number), byte(len(arguments)))
	for _, argument := range arguments {
		item = binary.BigEndian.AppendUint64(item, argument)
	}
	err = c.tried(func() error {
		begun, err = c.begunOnce(item, number, program)
		return err
	}, c.drop)
	return begun, err
}

// begunOnce asks for a begin, unless it was sent in books that are closed. Where its answer isn't known, it notes in which.
func (c *Client) begunOnce(item []byte, number uint64, program Program) (begun *Begun, err error) {
	books, sent := c.unknown[number]
	if err = c.ready(books, func() error { return c.closedBy(books, number, true, Chain{}) }); err != nil {
		return nil, err
	}
	err = c.exchange(tagRequest, item, tagAnswer, func(found *body) error {
		begun, err = c.answerOf(found, number, program)
		return err
	})
	var refused *Refused
	if err == nil || errors.As(err, &refused) {
		delete(c.unknown, number)
	} else if !isUndone(err) && !sent && c.Books != 0 {
		c.unknown[number] = c.Books
	}
	return begun, err
}

// isUndone tells whether nothing was done by this answer, and nothing is recorded of it.
func isUndone(err error) bool {
	return errors.Is(err, ErrClash) || errors.Is(err, ErrWrong) || errors.Is(err, ErrFull) || errors.Is(err, ErrBusy)
}

// closedBy tells that these books were closed before the answer came.
func (c *Client) closedBy(books, number uint64, numbered bool, chain Chain) error {
	err := fault(ErrBooksClosed, &BooksClosed{books, c.Books, c.ID, number, numbered, chain})
	err.Number, err.Numbered = number, numbered
	return err
}

// Look tells what that hop of the chain did, or ErrAbsent where it isn't done yet, also not within the time to wait. A chain
// whose books aren't known, as one of ParseChain, is one of the books that the client had last.
func (c *Client) Look(chain Chain, hop int, wait time.Duration) (*Found, error) {
	if chain.Origin < 0 || chain.Origin > 15 || hop < 0 || hop > 255 {
		return nil, fault(ErrAbsent, nil)
	}
	item := append(binary.BigEndian.AppendUint64([]byte{byte(chain.Origin)}, chain.Index), byte(hop))
	books := c.booksWith(chain)
	until := time.Now().Add(wait)
	for pause := time.Millisecond; ; pause = shorter(2*pause, 100*time.Millisecond) {
		found, err := c.lookedFor(item, books, chain)
		if err != nil {
			return nil, err
		}
		if found != nil {
			chain.Books = c.Books
			if last, owed := c.owed[chain]; owed && last == hop {
				delete(c.owed, chain)
			}
			return found, nil
		}
		left := time.Until(until)
		if left <= 0 {
			return nil, fault(ErrAbsent, nil)
		}
		time.Sleep(shorter(pause, left))
	}
}

// booksWith gives the number of the books that have the chain.
func (c *Client) booksWith(chain Chain) uint64 {
	if chain.Books != 0 {
		return chain.Books
	}
	if books, closed := c.closed[chain]; closed {
		return books
	}
	return c.Books
}

// lookedFor looks for a hop, unless its chain is of books that are closed.
func (c *Client) lookedFor(item []byte, books uint64, chain Chain) (found *Found, err error) {
	chain.Books = books
	err = c.tried(func() error {
		if err := c.ready(books, func() error { return c.closedBy(books, 0, false, chain) }); err != nil {
			return err
		}
		return c.exchange(tagLook, item, tagLooked, func(data *body) error {
			found = foundOf(data)
			return data.end()
		})
	}, c.drop)
	return found, err
}

// Settle returns once all chains that this client began are done, or ErrAbsent where they aren't in time. Of chains that were
// owed when their books were closed it gives ErrBooksClosed, once.
func (c *Client) Settle(within time.Duration) (err error) {
	until := time.Now().Add(within)
	err = c.unsettled
	for chain, hop := range c.owed {
		if err != nil {
			break
		}
		_, err = c.Look(chain, hop, time.Until(until))
	}
	if errors.Is(err, ErrBooksClosed) {
		c.unsettled = nil
	}
	return err
}

// Read tells what a cell of a table holds, 0 where nothing was put: at its server, at one moment, after whole steps. Nothing
// is recorded of it. To read at several servers at once, or in the order, begin a program that reads.
func (c *Client) Read(table string, key uint64) (value uint64, err error) {
	err = c.lookedUp(fmt.Sprintf("/cells/%s/%d", url.PathEscape(table), key), func(text []byte) error {
		var found struct {
			Value *uint64 `json:"value,string"`
		}
		if json.Unmarshal(text, &found) != nil || found.Value == nil {
			return errNoAnswer
		}
		value = *found.Value
		return nil
	})
	return value, err
}

// ReadRange gives the cells of a table from one key to another, both with them, that aren't 0, by their keys. They are asked
// for in pages of at most limit cells, 10000 at most, and 1000 where it is 0. Each page is of one moment at one server, and a
// later page of a later one: together they are of no one moment.
func (c *Client) ReadRange(table string, from, to uint64, limit int) ([]Cell, error) {
	if limit == 0 {
		limit = 1000
	}
	var all []Cell
	for {
		path := fmt.Sprintf("/cells/%s?from=%d&to=%d&limit=%d", url.PathEscape(table), from, to, limit)
		var found page
		err := c.lookedUp(path, func(text []byte) error {
			found = page{}
			if json.Unmarshal(text, &found) != nil || !found.isOf(from, to) {
				return errNoAnswer
			}
			return nil
		})
		if err != nil {
			return nil, err
		}
		for _, cell := range found.Cells {
			all = append(all, Cell(cell))
		}
		if found.Next == nil {
			return all, nil
		}
		from = *found.Next
	}
}

// page is what is told of cells: those of one server, and from which key to go on.
type page struct {
	Cells []struct {
		Key   uint64 `json:"key,string"`
		Value uint64 `json:"value,string"`
	} `json:"cells"`
	Next *uint64 `json:"next,string"`
}

// isOf tells whether a page can be one of these keys.
func (p *page) isOf(from, to uint64) bool {
	return p.Cells != nil && (p.Next == nil || from < *p.Next && *p.Next <= to)
}

// Find tells what became of the request of a client under a number: what each server recorded of it, by server. There is one
// record of a number that was used once, and none of a request that wasn't done, or was lost on its way. Books have no record
// of what was done in the books before.
func (c *Client) Find(client, number uint64) (records []Recorded, err error) {
	err = c.lookedUp(fmt.Sprintf("/requests/%d/%d", client, number), func(text []byte) error {
		var found struct{ Records []record }
		if json.Unmarshal(text, &found) != nil || found.Records == nil {
			return errNoAnswer
		}
		records = nil
		for _, each := range found.Records {
			recorded, err := each.recorded()
			if err != nil {
				return err
			}
			if !recorded.Refused {
				recorded.Chain.Books = c.readBooks
			}
			records = append(records, recorded)
		}
		return nil
	})
	var failed *Error
	if errors.As(err, &failed) && failed.kind == ErrWrong && failed.Reason == "no such request" {
		return nil, nil
	}
	return records, err
}

// record is what is told of a request at one server.
type record struct {
	Server  int    `json:"server,string"`
	Stamp   uint64 `json:"stamp,string"`
	Program string
	Args    []string
	Chain   string
	Results []string
	Refused *int `json:"refused,string"`
}

func (r *record) recorded() (Recorded, error) {
	found := Recorded{Server: r.Server, Stamp: r.Stamp, Program: r.Program}
	var argumentsFault, chainFault, resultsFault error
	found.Arguments, argumentsFault = wordsOf(r.Args)
	if r.Refused != nil {
		found.Refused, found.Need = true, *r.Refused
		return found, argumentsFault
	}
	found.Chain, chainFault = ParseChain(r.Chain)
	found.Results, resultsFault = wordsOf(r.Results)
	return found, firstOf(argumentsFault, chainFault, resultsFault)
}

func wordsOf(texts []string) ([]uint64, error) {
	words := make([]uint64, len(texts))
	for place, text := range texts {
		word, err := strconv.ParseUint(text, 10, 64)
		if err != nil {
			return nil, err
		}
		words[place] = word
	}
	return words, nil
}

// Close leaves. A request begins a new connection.
func (c *Client) Close() error {
	c.hangUp()
	if c.stream == nil {
		return nil
	}
	defer c.drop()
	return c.exchange(tagQuit, nil, tagBye, (*body).end)
}

// Shut has the service end: it takes no more clients, checks all that it told, and says whether it stood. It gives ErrLost
// where it couldn't be asked, and ErrByeLost where it was and its bye didn't come.
func (c *Client) Shut() error {
	defer c.hangUp()
	defer c.drop()
	err := c.tried(func() error {
		if err := c.ready(0, nil); err != nil {
			return err
		}
		return c.send(tagShut, nil)
	}, c.drop)
	if err != nil {
		return err
	}
	if err := c.answer(tagBye, (*body).end); err != nil {
		return fault(ErrByeLost, err)
	}
	return nil
}

// body is the body of an item, read from left to right. What is read behind its end is 0, and end tells.
type body struct {
	data  []byte
	short bool
}

func (b *body) take(count int) []byte {
	if len(b.data) < count {
		b.short = true
		return make([]byte, count)
	}
	taken := b.data[:count]
	b.data = b.data[count:]
	return taken
}

func (b *body) number() int { return int(b.take(1)[0]) }

func (b *body) word() uint64 { return binary.BigEndian.Uint64(b.take(8)) }

func (b *body) words() []uint64 {
	words := make([]uint64, b.number())
	for place := range words {
		words[place] = b.word()
	}
	return words
}

func (b *body) end() error {
	if b.short || len(b.data) > 0 {
		return errNoAnswer
	}
	return nil
}

// errNoAnswer ends a connection as a fault of the system does.
var errNoAnswer = errors.New("what came is no answer")

func foundOf(data *body) *Found {
	if data.number() == 0 {
		return nil
	}
	return &Found{data.word(), data.words()}
}

var wrong = map[int]string{2: "unknown-program", 3: "wrong-origin", 4: "arg-count", 5: "wrong-shard"}

var kinds = map[int]error{1: ErrClash, 6: ErrFull, 7: ErrBusy, 9: ErrStopped, 10: ErrWanting, 11: ErrOutside}

func (c *Client) answerOf(found *body, number uint64, program Program) (*Begun, error) {
	answer := found.number()
	switch {
	case answer == 0:
		begun := &Begun{Chain: Chain{found.number(), found.word(), c.Books}, Stamp: found.word(), Again: found.number() != 0,
			Results: found.words(), Number: number, Named: map[string]uint64{}, client: c, hops: program.Hops}
		for place, result := range begun.Results {
			if place < len(program.Names) {
				begun.Named[program.Names[place]] = result
			}
		}
		return begun, found.end()
	case answer == 8:
		refused := &Refused{Need: found.number(), Stamp: found.word(), Again: found.number() != 0, Number: number}
		if refused.Need < len(program.Needs) {
			refused.Text = program.Needs[refused.Need]
		}
		return nil, firstOf(found.end(), refused)
	case wrong[answer] != "":
		return nil, firstOf(found.end(), &Error{Reason: wrong[answer], kind: ErrWrong})
	case kinds[answer] != nil:
		return nil, firstOf(found.end(), fault(kinds[answer], nil))
	}
	return nil, firstOf(found.end(), &Error{Reason: "error"})
}

func firstOf(faults ...error) error {
	for _, err := range faults {
		if err != nil {
			return err
		}
	}
	return nil
}

// isAnswer tells whether the service answered, or there is nothing to ask it again.
func isAnswer(err error) bool {
	var answer *Error
	var refused *Refused
	return err == nil || errors.As(err, &answer) && !errors.Is(err, ErrNoService) || errors.As(err, &refused)
}

// tried does the work, again and again where the connection or the service is gone: the same request is never done twice.
func (c *Client) tried(work func() error, drop func()) error {
	for attempt := 1; ; attempt++ {
		err := work()
		if isAnswer(err) {
			return err
		}
		drop()
		if attempt >= c.options.Tries {
			if errors.Is(err, ErrNoService) {
				return err
			}
			return fault(ErrLost, err)
		}
		time.Sleep(shorter(20*time.Millisecond<<shorter(attempt, 6), time.Second))
	}
}

// lookedUp reads what the service tells at a path of its status port.
func (c *Client) lookedUp(path string, read func(text []byte) error) error {
	return c.tried(func() error { return c.lookedUpOnce(path, read) }, c.hangUp)
}

// lookedUpOnce does so over the connection that is kept, and over a new one where the service hung up on that.
func (c *Client) lookedUpOnce(path string, read func(text []byte) error) error {
	if c.reader != nil {
		err := c.reader.told(path, read)
		if isAnswer(err) {
			return err
		}
		c.hangUp()
	}
	if err := c.openReader(); err != nil {
		return err
	}
	return c.reader.told(path, read)
}

// openReader connects to where the service tells its status, whose set has to be the client's or to go on from it.
func (c *Client) openReader() error {
	told := notice{status: c.options.Status}
	var err error
	if c.folder != "" {
		if told, err = noticeOf(c.folder); err != nil {
			return err
		}
	}
	if told.status == 0 {
		return fault(ErrNoStatus, errors.New("the service tells no status: serve with --status"))
	}
	asked, err := readerAt(c.options.Host, told.status, c.options.Timeout)
	if err != nil {
		return err
	}
	set, err := asked.set()
	if err == nil {
		err = firstOf(c.compare(set), c.check(told))
	}
	if err != nil {
		asked.stream.Close()
		return err
	}
	c.reader, c.readBooks = asked, told.books
	return nil
}

// compare gives ErrOtherSet where a set is neither the client's nor goes on from it.
func (c *Client) compare(set string) error {
	if set != c.Set && !Extends(set, c.Set) {
		return fault(ErrOtherSet, nil)
	}
	return nil
}

func shorter[T int | time.Duration](one, other T) T {
	if one < other {
		return one
	}
	return other
}

func (c *Client) exchange(tag byte, item []byte, wanted byte, read func(*body) error) error {
	if err := c.send(tag, item); err != nil {
		return err
	}
	return c.answer(wanted, read)
}

// ready connects, where it isn't connected any more, to ask what can be asked in these books alone, or in any where they are
// 0. What is sent over a connection that the service ended may have been done, so it is looked at first.
func (c *Client) ready(books uint64, closed func() error) error {
	if c.stream != nil && c.isHungUp() {
		c.drop()
	}
	told := notice{port: c.port, status: c.options.Status}
	if c.stream == nil && c.folder != "" {
		var err error
		if told, err = c.find(); err != nil {
			return err
		}
	}
	if books != 0 && c.Books != 0 && books != c.Books {
		return closed()
	}
	if c.stream == nil {
		return c.connect(told)
	}
	return nil
}

// isHungUp tells whether the service ended the connection, or sent what wasn't asked for. A service that ends lets go of a
// client that is silent for a second; one that asks more often isn't kept waiting by this.
func (c *Client) isHungUp() bool {
	if time.Since(c.used) < idle {
		return false
	}
	if c.stream.SetReadDeadline(time.Now().Add(time.Millisecond)) != nil {
		return true
	}
	_, err := c.stream.Read(make([]byte, 1))
	return !errors.Is(err, os.ErrDeadlineExceeded)
}

func (c *Client) send(tag byte, item []byte) error {
	if err := c.stream.SetDeadline(time.Now().Add(c.options.Timeout)); err != nil {
		return err
	}
	frame := binary.BigEndian.AppendUint32([]byte{tag}, uint32(len(item)))
	_, err := c.stream.Write(append(frame, item...))
	c.used = time.Now()
	return err
}

// find looks again where the service over the folder listens. The folder may lead to the next books.
func (c *Client) find() (notice, error) {
	told, err := noticeOf(c.folder)
	if err != nil {
		return told, err
	}
	if told.books != c.Books {
		former := c.Books
		c.Books = told.books
		for chain := range c.owed {
			c.unsettled = c.closedBy(former, 0, false, chain)
			c.closed[chain.bare()] = former
			delete(c.owed, chain)
		}
	}
	return told, nil
}

// connect connects to the service, whose set has to be the client's or to go on from it, as far as that is told: at the port
// of its status, where it has one, since a kill leaves what the folder tells, and another service may have its ports by now.
func (c *Client) connect(told notice) (err error) {
	set := told.set
	if told.status != 0 {
		if set, err = ServedSet(c.options.Host, told.status, c.options.Timeout); err != nil {
			return err
		}
	}
	if set != "" {
		if err = c.compare(set); err != nil {
			return err
		}
	}
	address := net.JoinHostPort(c.options.Host, strconv.Itoa(told.port))
	stream, err := net.DialTimeout("tcp", address, c.options.Timeout)
	if err != nil {
		return err
	}
	if err = c.check(told); err != nil {
		stream.Close()
		return err
	}
	c.stream, c.used = stream, time.Now()
	return nil
}

// check tells whether it is connected to a service of the books of the notice: it is where these weren't closed before.
func (c *Client) check(told notice) error {
	if c.folder != "" && isCarried(told.folder) {
		return fault(ErrNoService, errors.New(c.folder))
	}
	return nil
}

func (c *Client) answer(wanted byte, read func(*body) error) error {
	var head [5]byte
	if _, err := io.ReadFull(c.stream, head[:]); err != nil {
		return err
	}
	length := binary.BigEndian.Uint32(head[1:])
	if head[0] != wanted || length > maxBodyBytes {
		return errNoAnswer
	}
	data := make([]byte, length)
	if _, err := io.ReadFull(c.stream, data); err != nil {
		return err
	}
	return read(&body{data: data})
}

func (c *Client) drop() {
	if c.stream != nil {
		c.stream.Close()
		c.stream = nil
	}
}

func (c *Client) hangUp() {
	if c.reader != nil {
		c.reader.stream.Close()
		c.reader = nil
	}
}
