// Command keep tells a session each line of standard input, prints the answers, and keeps the lines that its log took in a file.
// Started again, it goes on from that.
//
//	tools/build_c_library.sh /tmp/pgpeer
//	cd examples/go && PKG_CONFIG_PATH=/tmp/pgpeer go run ./keep /tmp/log < ../outage.jsonl
package main

import (
	"bufio"
	"bytes"
	"errors"
	"fmt"
	"io"
	"os"

	"pgpeer"
)

// wholeLines gives the whole lines of a file. One that was cut off as it was written was never answered, and is taken away.
func wholeLines(file *os.File) ([]byte, error) {
	text, err := io.ReadAll(file)
	if err != nil {
		return nil, err
	}
	text = text[:bytes.LastIndexByte(text, '\n')+1]
	return text, file.Truncate(int64(len(text)))
}

// tell tells the session a line, keeps it where the log took it, and prints the answer.
func tell(session *pgpeer.Session, file *os.File, line []byte) error {
	before, err := session.Count()
	if err != nil {
		return err
	}
	answer, err := session.Tell(line)
	if err != nil {
		return err
	}
	if after, err := session.Count(); err != nil {
		return err
	} else if after > before {
		if _, err := file.Write(append(line, '\n')); err != nil {
			return err
		}
		if err := file.Sync(); err != nil {
			return err
		}
	}
	_, err = os.Stdout.Write(answer)
	return err
}

func keep(path string) error {
	file, err := os.OpenFile(path, os.O_RDWR|os.O_CREATE|os.O_APPEND, 0644)
	if err != nil {
		return err
	}
	defer file.Close()
	lines, err := wholeLines(file)
	if err != nil {
		return err
	}
	session, refused, err := pgpeer.Open(lines)
	if err != nil {
		return err
	}
	defer session.Close()
	if refused > 0 {
		return errors.New("the file has other lines than those of a log")
	}
	in := bufio.NewReader(os.Stdin)
	for {
		line, end := in.ReadBytes('\n')
		if len(line) > 0 {
			if err := tell(session, file, bytes.TrimSuffix(line, []byte{'\n'})); err != nil {
				return err
			}
		}
		if end == io.EOF {
			return nil
		} else if end != nil {
			return end
		}
	}
}

func main() {
	err := errors.New("usage: keep FILE")
	if len(os.Args) == 2 {
		err = keep(os.Args[1])
	}
	if err != nil {
		fmt.Fprintln(os.Stderr, "keep:", err)
		os.Exit(1)
	}
}
