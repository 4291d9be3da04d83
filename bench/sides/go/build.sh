#!/bin/sh
# Builds the Go side into the file given, from a copy of Debian's golang-github-go-sql-driver-mysql-dev.
set -e
here=$(cd "$(dirname "$0")" && pwd)
work=$(mktemp -d)
trap 'rm -rf "$work"' EXIT
mkdir "$work/mysql"
cp /usr/share/gocode/src/github.com/go-sql-driver/mysql/*.go "$work/mysql/"
rm -f "$work"/mysql/*_test.go
cp "$here/side.go" "$work/mysql/"
cp "$here/main.go" "$work/"
printf 'module side\n\ngo 1.19\n' > "$work/go.mod"
cd "$work"
GOFLAGS=-mod=mod GO111MODULE=on GOPROXY=off go build -o "$1" .
