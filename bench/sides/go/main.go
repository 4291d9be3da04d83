package main

import "side/mysql"

func main() { mysql.Side() }
