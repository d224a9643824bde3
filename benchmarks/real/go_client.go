// The rows over go-zookeeper: the same words and lines as dirwolleu.c, without make and change.
//
// usage: go_client PORT ROW COUNT TIMES
//
// Its calls block until they are answered. Where one call waits at a time, the goroutine that measures makes it; else each call has a
// goroutine of its own. A watch is a channel.
package main

import (
	"encoding/binary"
	"errors"
	"fmt"
	"log"
	"net"
	"os"
	"strconv"
	"strings"
	"sync"
	"syscall"
	"time"

	"github.com/samuel/go-zookeeper/zk"
)

const (
	node           = "/real"
	atOnce         = 1000
	sessionTimeout = 30 * time.Second
)

var data = []byte(strings.Repeat("0123456789", 10))

// processorTime answers that of this process until now, user and system.
func processorTime() (time.Duration, error) {
	var usage syscall.Rusage
	err := syscall.Getrusage(syscall.RUSAGE_SELF, &usage)
	return time.Duration(usage.Utime.Nano() + usage.Stime.Nano()), err
}

// peakMemory answers the most memory that this process had until now, in kilobytes.
func peakMemory() (string, error) {
	status, err := os.ReadFile("/proc/self/status")
	if err != nil {
		return "", err
	}
	for _, line := range strings.Split(string(status), "\n") {
		if words := strings.Fields(line); len(words) > 1 && words[0] == "VmHWM:" {
			return words[1], nil
		}
	}
	return "", errors.New("this process has no VmHWM")
}

// measure does something, and prints what went by meanwhile: took WALL PROCESSOR MEMORY.
func measure(something func() error) error {
	began := time.Now()
	before, err := processorTime()
	if err != nil {
		return err
	}
	if err := something(); err != nil {
		return err
	}
	wall := time.Since(began)
	after, err := processorTime()
	if err != nil {
		return err
	}
	peak, err := peakMemory()
	if err != nil {
		return err
	}
	fmt.Println("took", wall.Microseconds(), (after - before).Microseconds(), peak)
	return nil
}

// askAtOnce asks by each number from the first to before the end, each in a goroutine of its own, and waits for all answers.
func askAtOnce(first, end int, ask func(number int) error) error {
	var left sync.WaitGroup
	failures := make([]error, end-first)
	left.Add(len(failures))
	for i := range failures {
		go func(i int) {
			defer left.Done()
			failures[i] = ask(first + i)
		}(i)
	}
	left.Wait()
	for _, err := range failures {
		if err != nil {
			return err
		}
	}
	return nil
}

// askEach asks by each number below the count; at most atOnce calls wait.
func askEach(count int, ask func(number int) error) error {
	for first := 0; first < count; first += atOnce {
		end := first + atOnce
		if end > count {
			end = count
		}
		if err := askAtOnce(first, end, ask); err != nil {
			return err
		}
	}
	return nil
}

// A call asks about a path, and waits for the answer.
type call func(path string) error

// askOver makes calls about the one node: count at once, and this times over.
func askOver(ask call, count, times int) error {
	askSome := func() error { return ask(node) }
	if count > 1 {
		askSome = func() error { return askAtOnce(0, count, func(int) error { return ask(node) }) }
	}
	for i := 0; i < times; i++ {
		if err := askSome(); err != nil {
			return err
		}
	}
	return nil
}

func pathOf(number int) string {
	return node + "/" + strconv.Itoa(number)
}

func checkData(path string, read []byte) error {
	if len(read) != len(data) {
		return fmt.Errorf("the data of %s has %d bytes", path, len(read))
	}
	return nil
}

// A session runs the rows.
type session struct {
	conn *zk.Conn
}

func (s session) read(path string) error {
	read, _, err := s.conn.Get(path)
	if err != nil {
		return err
	}
	return checkData(path, read)
}

func (s session) write(path string) error {
	_, err := s.conn.Set(path, data, -1)
	return err
}

// watch reads a node, and answers the channel that reports its change.
func (s session) watch(path string) (<-chan zk.Event, error) {
	read, _, watch, err := s.conn.GetW(path)
	if err != nil {
		return nil, err
	}
	return watch, checkData(path, read)
}

func (s session) readEach(count int) error {
	return askEach(count, func(number int) error { return s.read(pathOf(number)) })
}

func (s session) watchEach(count int) ([]<-chan zk.Event, error) {
	watches := make([]<-chan zk.Event, count)
	err := askEach(count, func(number int) (err error) {
		watches[number], err = s.watch(pathOf(number))
		return err
	})
	return watches, err
}

func measureOver(ask call, count, times int) error {
	if err := askOver(ask, count, (times+9)/10); err != nil {
		return err
	}
	return measure(func() error { return askOver(ask, count, times) })
}

// awaitReports takes the report of each watch, one after the other: each channel keeps its report until then.
func awaitReports(watches []<-chan zk.Event) error {
	for _, watch := range watches {
		if event := <-watch; event.Type != zk.EventNodeDataChanged {
			return fmt.Errorf("a watch ended by %v, %v", event.Type, event.Err)
		}
	}
	return nil
}

func (s session) measureWatches(count int) error {
	if err := s.readEach(count); err != nil {
		return err
	}
	var watches []<-chan zk.Event
	err := measure(func() (err error) {
		watches, err = s.watchEach(count)
		return err
	})
	if err != nil {
		return err
	}
	return measure(func() error {
		fmt.Println("ready")
		return awaitReports(watches)
	})
}

// A restorer tells when all watches have been asked for again after a cut. The client does that in a goroutine of its own, each request
// after the answer to the one before. It says that it is connected, and takes calls, before that is done, and does not say when it is. So
// this looks at the requests on their way: the client writes each by one call.
type restorer struct {
	left int
	done chan struct{}
}

func (r *restorer) dial(network, address string, timeout time.Duration) (net.Conn, error) {
	conn, err := net.DialTimeout(network, address, timeout)
	if err != nil {
		return nil, err
	}
	return restoredConn{conn, r}, nil
}

// A restoredConn is a connection whose requests are looked at.
type restoredConn struct {
	net.Conn
	restorer *restorer
}

// Write passes a request on. It begins with its length, its number and its kind, of four bytes each. In a setWatches a zxid of eight bytes
// follows, and the number of its watches of data.
func (c restoredConn) Write(request []byte) (int, error) {
	const kindAt, countAt, setWatches = 8, 20, 101
	written, err := c.Conn.Write(request)
	if len(request) >= countAt+4 && binary.BigEndian.Uint32(request[kindAt:]) == setWatches {
		c.restorer.left -= int(binary.BigEndian.Uint32(request[countAt:]))
		if c.restorer.left == 0 {
			close(c.restorer.done)
		}
	}
	return written, err
}

// measureReconnect reads once all watches have been asked for: the server answers in order, so they are set by then.
func (s session) measureReconnect(count int, restoring *restorer) error {
	if _, err := s.watchEach(count); err != nil {
		return err
	}
	return measure(func() error {
		fmt.Println("ready")
		<-restoring.done
		return s.read(node)
	})
}

// run begins a session, in which calls wait until it has begun, and runs a row.
func run(port, row string, count, times int) error {
	restoring := &restorer{count, make(chan struct{})}
	dialer := net.DialTimeout
	if row == "reconnect" {
		dialer = restoring.dial
	}
	conn, _, err := zk.Connect([]string{"127.0.0.1:" + port}, sessionTimeout, zk.WithLogInfo(false), zk.WithDialer(dialer))
	if err != nil {
		return err
	}
	defer conn.Close()
	s := session{conn}
	switch row {
	case "read":
		return measureOver(s.read, count, times)
	case "write":
		return measureOver(s.write, count, times)
	case "watch":
		return s.measureWatches(count)
	case "reconnect":
		return s.measureReconnect(count, restoring)
	}
	return fmt.Errorf("there is no row %s", row)
}

func runWords(words []string) error {
	if len(words) != 5 {
		return errors.New("usage: go_client PORT ROW COUNT TIMES")
	}
	count, err := strconv.Atoi(words[3])
	if err != nil {
		return err
	}
	times, err := strconv.Atoi(words[4])
	if err != nil {
		return err
	}
	return run(words[1], words[2], count, times)
}

func main() {
	log.SetFlags(0)
	if err := runWords(os.Args); err != nil {
		log.Fatal("failed: ", err)
	}
}
