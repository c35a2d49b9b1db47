// What tests/test_languages.py asks of clients/go/lynx: lines in, a line out for each.
//
//	driver folder FOLDER CLIENT TRIES TIMEOUT       and driver uncounted .., without a first number
//	driver port PORT SET CLIENT TRIES TIMEOUT       and driver status PORT STATUS SET ..
package main

import (
	"bufio"
	"errors"
	"fmt"
	"os"
	"sort"
	"strconv"
	"strings"
	"time"

	"lynx.internal/lynx"
)

var kinds = []struct {
	name string
	kind error
}{
	{"Clash", lynx.ErrClash}, {"Outside", lynx.ErrOutside}, {"Wrong", lynx.ErrWrong}, {"Full", lynx.ErrFull},
	{"Busy", lynx.ErrBusy}, {"Stopped", lynx.ErrStopped}, {"Wanting", lynx.ErrWanting}, {"Lost", lynx.ErrLost},
	{"ByeLost", lynx.ErrByeLost}, {"NoService", lynx.ErrNoService}, {"OtherSet", lynx.ErrOtherSet},
	{"NoNumber", lynx.ErrNoNumber}, {"NoStatus", lynx.ErrNoStatus}, {"BooksClosed", lynx.ErrBooksClosed},
}

// list gives what stands for a list, of whatever it is.
func list(values any) string {
	text := strings.Trim(fmt.Sprint(values), "[]")
	if text == "" {
		return "-"
	}
	return text
}

func named(values map[string]uint64) string {
	var pairs []string
	for name, value := range values {
		pairs = append(pairs, fmt.Sprintf("%s=%d", name, value))
	}
	sort.Strings(pairs)
	return list(pairs)
}

func toldOf(fault error) string {
	var refused *lynx.Refused
	var failed *lynx.Error
	switch {
	case errors.As(fault, &refused):
		return fmt.Sprintf("refused %d stamp %d again %t number %d: %s", refused.Need, refused.Stamp, refused.Again,
			refused.Number, refused.Text)
	case errors.Is(fault, lynx.ErrAbsent):
		return "absent"
	case !errors.As(fault, &failed):
		return fault.Error()
	}
	number := "-"
	if failed.Numbered {
		number = fmt.Sprint(failed.Number)
	}
	for _, each := range kinds {
		if errors.Is(fault, each.kind) {
			return fmt.Sprintf("fault %s %s %s", each.name, failed.Reason, number)
		}
	}
	return fmt.Sprintf("fault LynxError %s %s", failed.Reason, number)
}

func number(text string) uint64 {
	found, err := strconv.ParseUint(text, 10, 64)
	if err != nil {
		panic(err)
	}
	return found
}

func numbers(texts []string) (found []uint64) {
	for _, text := range texts {
		found = append(found, number(text))
	}
	return found
}

func seconds(text string) time.Duration { return time.Duration(number(text)) * time.Second }

type driver struct {
	bank    *lynx.Client
	begun   *lynx.Begun
	records []lynx.Recorded
	fault   error
}

func (d *driver) begin(under, program string, arguments []uint64) (string, error) {
	var err error
	under, books, earlier := strings.Cut(under, "@")
	if under == "-" {
		d.begun, err = d.bank.Begin(program, arguments...)
	} else {
		if earlier {
			d.bank.SentIn(number(under), number(books))
		}
		d.begun, err = d.bank.BeginNumbered(number(under), program, arguments...)
	}
	if err != nil {
		return "", err
	}
	begun := d.begun
	return fmt.Sprintf("begun %v stamp %d results %s again %t number %d named %s", begun.Chain, begun.Stamp,
		list(begun.Results), begun.Again, begun.Number, named(begun.Named)), nil
}

func (d *driver) many(count uint64, program string, arguments []uint64) (string, error) {
	var all []string
	for ; count > 0; count-- {
		begun, err := d.bank.Begin(program, arguments...)
		if err != nil {
			return "", err
		}
		all = append(all, fmt.Sprintf("%v/%d", begun.Chain, begun.Number))
	}
	return list(all), nil
}

func (d *driver) look(text, hop, wait string) (string, error) {
	chain, err := lynx.ParseChain(text)
	if text == "found" {
		chain = d.records[0].Chain
	} else if err != nil {
		return "", err
	}
	found, err := d.bank.Look(chain, int(number(hop)), seconds(wait))
	if err != nil {
		return "", err
	}
	return fmt.Sprintf("found stamp %d results %s", found.Stamp, list(found.Results)), nil
}

func (d *driver) wait(wait string) (string, error) {
	hops, err := d.begun.Wait(seconds(wait))
	var all []string
	for _, hop := range hops {
		all = append(all, list(hop))
	}
	return "all " + strings.Join(all, " | "), err
}

func (d *driver) cells(table string, bounds []uint64) (string, error) {
	cells, err := d.bank.ReadRange(table, bounds[0], bounds[1], int(bounds[2]))
	var all []string
	for _, cell := range cells {
		all = append(all, fmt.Sprintf("%d=%d", cell.Key, cell.Value))
	}
	return list(all), err
}

func recordedOf(it lynx.Recorded) string {
	chain, need := it.Chain.String(), "-"
	if it.Refused {
		chain, need = "-", fmt.Sprint(it.Need)
	}
	return fmt.Sprintf("server %d stamp %d program %s args %s chain %s results %s need %s", it.Server, it.Stamp, it.Program,
		list(it.Arguments), chain, list(it.Results), need)
}

func (d *driver) find(client, under uint64) (string, error) {
	records, err := d.bank.Find(client, under)
	d.records = records
	var all []string
	for _, each := range records {
		all = append(all, recordedOf(each))
	}
	if len(all) == 0 {
		return "-", err
	}
	return strings.Join(all, " | "), err
}

func (d *driver) closed() string {
	var it *lynx.BooksClosed
	if !errors.As(d.fault, &it) {
		return "-"
	}
	number, chain := "-", "-"
	if it.Numbered {
		number = fmt.Sprint(it.Number)
	}
	if it.Chain != (lynx.Chain{}) {
		chain = it.Chain.String()
	}
	return fmt.Sprintf("old %d new %d client %d number %s chain %s", it.Old, it.New, it.Client, number, chain)
}

func (d *driver) do(line []string) (string, error) {
	switch line[0] {
	case "begin":
		return d.begin(line[1], line[2], numbers(line[3:]))
	case "many":
		return d.many(number(line[1]), line[2], numbers(line[3:]))
	case "look":
		return d.look(line[1], line[2], line[3])
	case "wait":
		return d.wait(line[1])
	case "settle":
		return "settled", d.bank.Settle(seconds(line[1]))
	case "read":
		value, err := d.bank.Read(line[1], number(line[2]))
		return fmt.Sprint(value), err
	case "range":
		return d.cells(line[1], numbers(line[2:]))
	case "find":
		return d.find(number(line[1]), number(line[2]))
	case "why":
		return d.fault.Error(), nil
	case "books":
		return fmt.Sprint(d.bank.Books), nil
	case "closed":
		return d.closed(), nil
	case "close":
		return "closed", d.bank.Close()
	}
	return "shut", d.bank.Shut()
}

func (d *driver) open(line []string) (string, error) {
	chosen := line[len(line)-3:]
	options := &lynx.Options{Client: number(chosen[0]), First: 1, Tries: int(number(chosen[1])), Timeout: seconds(chosen[2])}
	var err error
	if line[0] == "uncounted" {
		options.First = 0
	}
	if line[0] == "status" {
		options.Status = int(number(line[2]))
	} else if line[0] != "port" {
		d.bank, err = lynx.Open(line[1], options)
		return "opened", err
	}
	set, err := os.ReadFile(line[len(line)-4])
	if err != nil {
		return "", err
	}
	d.bank, err = lynx.Dial(int(number(line[1])), string(set), options)
	return "opened", err
}

func (d *driver) say(text string, fault error) {
	if fault != nil {
		d.fault, text = fault, toldOf(fault)
	}
	fmt.Println(text)
}

func main() {
	var it driver
	it.say(it.open(os.Args[1:]))
	for lines := bufio.NewScanner(os.Stdin); lines.Scan(); {
		it.say(it.do(strings.Split(lines.Text(), " ")))
	}
}
