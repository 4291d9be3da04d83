// What each client does for the auditing proxy's test, by go-sql-driver.
package main

import (
	"database/sql"
	"errors"
	"fmt"
	"math"
	"os"
	"strings"
	"time"

	"github.com/go-sql-driver/mysql"
)

func check(err error) {
	if err != nil {
		panic(err)
	}
}

func refused(err error, code uint16) {
	var refusal *mysql.MySQLError
	if !errors.As(err, &refusal) || refusal.Number != code {
		panic(fmt.Sprint(err))
	}
}

func connect(given []string, user string) *sql.DB {
	source := fmt.Sprintf("%s@tcp(%s:%s)/%s?allowAllFiles=true&maxAllowedPacket=67108864", user,
		given[0], given[1], given[3])
	database, err := sql.Open("mysql", source)
	check(err)
	database.SetMaxOpenConns(1)
	return database
}

func main() {
	given := os.Args[1:]
	database := connect(given, given[2])
	_, err := database.Exec("INSERT INTO audited (id, s) VALUES (1, 'it''s')")
	check(err)
	var id int
	var text string
	check(database.QueryRow("SELECT id, s FROM audited WHERE id = 1").Scan(&id, &text))
	if id != 1 || text != "it's" {
		panic(text)
	}
	_, err = database.Exec("SELECT * FROM audited_not_there")
	refused(err, 1146)
	prepared(database)
	check(database.QueryRow("SELECT REPEAT('x', 17000000) AS audited").Scan(&text))
	if text != strings.Repeat("x", 17000000) {
		panic(len(text))
	}
	_, err = database.Exec("LOAD DATA LOCAL INFILE '" + given[4] + "' INTO TABLE audited (s)")
	check(err)
	if _, err = database.Exec("KILL CONNECTION_ID() /* audited */"); err == nil {
		panic("the connection is killed")
	}
	check(database.Close())
	database = connect(given, "audited_nobody:wrong")
	refused(database.Ping(), 1045)
	database = connect(given, given[2])
	check(database.Ping())
	check(database.Close())
	fmt.Println("done")
}

func prepared(database *sql.DB) {
	insert, err := database.Prepare("INSERT INTO audited VALUES (?, ?, ?, ?, ?, ?, ?, ?, ?, ?)")
	check(err)
	day := time.Date(2024, 2, 29, 0, 0, 0, 0, time.UTC)
	moment := time.Date(2024, 2, 29, 12, 30, 1, 5000, time.UTC)
	_, err = insert.Exec(2, -7, uint64(math.MaxInt64)+1, 1.5, "maté \u2618", []byte{255, 0, '\''},
		nil, day, moment, "-30:01:00")
	check(err)
	check(insert.Close())
	query, err := database.Prepare("SELECT s FROM audited WHERE id = ?")
	check(err)
	for _, id := range []int{2, 9} {
		var text string
		if err = query.QueryRow(id).Scan(&text); id == 2 {
			check(err)
		} else if err != sql.ErrNoRows {
			panic(err)
		}
	}
	check(query.Close())
}
