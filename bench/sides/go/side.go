package mysql

// The same work by go-sql-driver, over a connection that reads from memory and writes nowhere: INPUTS ROUNDS WORKLOAD..
// This file is compiled inside a copy of the driver's package, since what it calls is internal.

import (
	"database/sql/driver"
	"encoding/binary"
	"fmt"
	"io"
	"net"
	"os"
	"path/filepath"
	"strconv"
	"strings"
	"syscall"
	"time"
)

type memory struct {
	net.Conn
	left    []byte
	written int
}

func (m *memory) Read(to []byte) (int, error) {
	if len(m.left) == 0 {
		return 0, io.EOF
	}
	n := copy(to, m.left)
	m.left = m.left[n:]
	return n, nil
}

func (m *memory) Write(b []byte) (int, error) { m.written += len(b); return len(b), nil }
func (m *memory) Close() error                { return nil }

const (
	width = 4
	rows  = 1e6
)

func check(err error) {
	if err != nil {
		fmt.Fprintln(os.Stderr, err)
		os.Exit(2)
	}
}

func load(name string) []byte {
	b, err := os.ReadFile(filepath.Join(os.Args[1], name))
	check(err)
	return b
}

// valueAt is the value that stands first, and what follows it.
func valueAt(b []byte) (driver.Value, []byte) {
	kind := b[0]
	b = b[1:]
	switch kind {
	case 8:
		return int64(binary.LittleEndian.Uint64(b)), b[8:]
	case 253:
		n := int(b[0])
		b = b[1:]
		if n == 252 {
			n = int(binary.LittleEndian.Uint16(b))
			b = b[2:]
		}
		return string(b[:n]), b[n:]
	}
	return nil, b
}

func loadSets(name string, count int) [][]driver.Value {
	b := load(name)
	all := make([][]driver.Value, count)
	for i := range all {
		all[i] = make([]driver.Value, width)
		for k := range all[i] {
			all[i][k], b = valueAt(b)
		}
	}
	return all
}

func connected(m *memory) *mysqlConn {
	return &mysqlConn{buf: newBuffer(m), netConn: m, cfg: NewConfig(), maxAllowedPacket: 16777215, maxWriteSize: maxPacketSize - 1, closech: make(chan struct{})}
}

func processor() float64 {
	var used syscall.Rusage
	check(syscall.Getrusage(syscall.RUSAGE_SELF, &used))
	return float64(used.Utime.Nano() + used.Stime.Nano())
}

func measure(who, what string, units float64, rounds int, run func() int) {
	for ; rounds > 0; rounds-- {
		wall, before := time.Now(), processor()
		n := run()
		fmt.Printf("%s %s %.4f %.4f %d\n", what, who, float64(time.Since(wall).Nanoseconds())/units, (processor()-before)/units, n)
	}
}

func sendText(mc *mysqlConn, query string, set []driver.Value) {
	text, err := mc.interpolateParams(query, set)
	check(err)
	check(mc.writeCommandPacketStr(comQuery, text))
}

func send(what, road, query string, all [][]driver.Value, times, rounds int) {
	measure("go-sql-driver", what, float64(len(all)*times), rounds, func() int {
		m := &memory{}
		mc := connected(m)
		stmt := &mysqlStmt{mc: mc, id: 1, paramCount: width}
		for t := 0; t < times; t++ {
			m.written = 0
			for _, set := range all {
				if road == "execute" {
					check(stmt.writeExecutePacket(set))
				} else {
					sendText(mc, query, set)
				}
			}
		}
		return m.written
	})
}

// kept is a copy of a row.
func kept(dest []driver.Value) []driver.Value {
	row := make([]driver.Value, len(dest))
	for k, v := range dest {
		if b, ok := v.([]byte); ok {
			row[k] = append([]byte(nil), b...)
		} else {
			row[k] = v
		}
	}
	return row
}

// sumOf is what the cells of a row come to, of bytes how many, and 1 for the row.
func sumOf(row []driver.Value) int {
	sum := 1
	for _, v := range row {
		switch v := v.(type) {
		case []byte:
			sum += len(v)
		case int64:
			sum += int(v)
		}
	}
	return sum
}

// copied is the copy of a row that was read last.
var copied []driver.Value

// readAll reads a reply, keeps copies of its rows where asked for, and answers how many there are, or what all cells come to.
func readAll(reply []byte, isBinary, copies, keeps, sums bool) int {
	mc := connected(&memory{left: reply})
	mc.sequence = 1
	count, err := mc.readResultSetHeaderPacket()
	check(err)
	columns, err := mc.readColumns(count)
	check(err)
	text, binary := &textRows{mysqlRows{mc: mc}}, &binaryRows{mysqlRows{mc: mc}}
	text.rs.columns, binary.rs.columns = columns, columns
	n := 0
	var all [][]driver.Value
	dest := make([]driver.Value, count)
	for {
		if isBinary {
			err = binary.readRow(dest)
		} else {
			err = text.readRow(dest)
		}
		if err == io.EOF {
			break
		}
		check(err)
		if copies {
			copied = kept(dest)
		}
		if keeps {
			all = append(all, copied)
		}
		if sums && !keeps {
			n += sumOf(dest)
		} else if !sums {
			n++
		}
	}
	if sums && keeps {
		for _, row := range all {
			n += sumOf(row)
		}
	}
	return n
}

func run(what string, rounds int) {
	for _, line := range strings.Split(string(load("works")), "\n") {
		var name, road, query, sets string
		var count, times int
		if n, _ := fmt.Sscan(line, &name, &road, &query, &sets, &count, &times); n == 6 && name == what {
			send(what, road, string(load(query)), loadSets(sets, count), times, rounds)
		}
	}
	if strings.HasPrefix(what, "reply-") {
		isLent, isStored := strings.HasSuffix(what, "-lent"), strings.HasSuffix(what, "-stored")
		sums := isLent || isStored
		isBinary := strings.HasPrefix(what, "reply-binary")
		reply := load(map[bool]string{false: "reply-text", true: "reply-binary"}[isBinary])
		if isLent {
			measure("go-sql-driver-row", what, rows, rounds, func() int { return readAll(reply, isBinary, false, false, sums) })
		}
		if !isLent {
			measure("go-sql-driver-kept", what, rows, rounds, func() int { return readAll(reply, isBinary, true, true, sums) })
		}
	}
	// Of a connection the rows of its one reply alone.
	if strings.HasPrefix(what, "connection-rows") {
		reply, isLent := load("reply-text"), strings.HasSuffix(what, "-lent")
		measure("go-sql-driver-row", what, rows, rounds, func() int { return readAll(reply, false, false, false, isLent) })
		if !isLent {
			measure("go-sql-driver-copied", what, rows, rounds, func() int { return readAll(reply, false, true, false, false) })
		}
	}
}

// Side runs workloads.
func Side() {
	rounds, err := strconv.Atoi(os.Args[2])
	check(err)
	for _, what := range os.Args[3:] {
		run(what, rounds)
	}
}
