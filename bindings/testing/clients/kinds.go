// Prints a row with a column of each type, by text and by an execution, by go-sql-driver.
package main

import (
	"database/sql"
	"fmt"
	"os"
	"strings"

	_ "github.com/go-sql-driver/mysql"
)

func check(err error) {
	if err != nil {
		panic(err)
	}
}

func print(rows *sql.Rows) {
	defer rows.Close()
	names, err := rows.Columns()
	check(err)
	texts, places := make([]sql.NullString, len(names)), make([]any, len(names))
	for i := range texts {
		places[i] = &texts[i]
	}
	for rows.Next() {
		check(rows.Scan(places...))
		said := []string{}
		for _, text := range texts {
			if !text.Valid {
				text.String = "NULL"
			}
			said = append(said, text.String)
		}
		fmt.Println(strings.Join(said, "|"))
	}
	check(rows.Err())
}

func main() {
	it, err := sql.Open("mysql", "ann:x@tcp(127.0.0.1:"+os.Args[1]+")/shop")
	check(err)
	rows, err := it.Query("SELECT * FROM kinds")
	check(err)
	print(rows)
	for id := 1; id <= 2; id++ {
		rows, err := it.Query("SELECT * FROM kinds WHERE id = ?", id)
		check(err)
		print(rows)
	}
}
