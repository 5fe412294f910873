// Checks the transcript on standard input. From the top of the repository:
//
//	(cd crates/dsr_check_c && rt lib)
//	export CGO_LDFLAGS="-L$PWD/crates/dsr_check_c/out -L$(dirname "$(rt doc)")/c"
//	(cd examples/record/go && go build -o ../../../check-record .)
//	./check-record < TRANSCRIPT
//
// It prints what was found, and ends with its number: 0 for a run, and 17 if standard input cannot be read. Go builds it without a network, as it needs no other
// module.
package main

import (
	"fmt"
	"io"
	"os"

	"check-record/check"
)

const unread = 17

func main() {
	text, err := io.ReadAll(os.Stdin)
	if err != nil {
		fmt.Fprintln(os.Stderr, err)
		os.Exit(unread)
	}
	report := check.Text(text)
	fmt.Println(report)
	os.Exit(int(report.Status))
}
