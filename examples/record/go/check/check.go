// Package check says of a text whether it is the transcript of a run. What is promised stands in include/dsr_check.h.
package check

/*
#cgo CFLAGS: -I${SRCDIR}/../../../../include
#cgo LDFLAGS: -ldsr_check_c -llibc_c
#include "dsr_check.h"
*/
import "C"

import (
	"fmt"
	"unsafe"
)

// Status says what a text was found to be.
type Status uint64

// The statuses. BadText and NotARun name a line, and NoMemory says nothing of the text.
const (
	Run      Status = C.DSR_RUN
	BadShape Status = C.DSR_BAD_SHAPE
	NoMemory Status = C.DSR_NO_MEMORY
	BadText  Status = C.DSR_BAD_TEXT
	NotARun  Status = C.DSR_NOT_A_RUN
)

// Report is what a text was found to be. Line is 0 if the status names none, and the three counts are 0 unless the text is the transcript of a run.
type Report struct {
	Status                           Status
	Line, Entries, History, Accepted uint64
}

// Text checks a text, whatever is in it. Goroutines may check texts at the same time.
func Text(text []byte) Report {
	// The library wants an address, which an empty slice may not have.
	first := new(byte)
	if len(text) > 0 {
		first = &text[0]
	}
	var found C.struct_dsr_report
	C.dsr_check_text((*C.uchar)(unsafe.Pointer(first)), C.size_t(len(text)), &found)
	return Report{Status(found.status), uint64(found.line), uint64(found.entries), uint64(found.history), uint64(found.accepted)}
}

// String tells the report in the words of examples/record/check.c.
func (report Report) String() string {
	switch report.Status {
	case Run:
		return fmt.Sprintf("entries %d\nhistory %d\naccepted %d", report.Entries, report.History, report.Accepted)
	case BadShape:
		return "the shape is not allowed"
	case BadText:
		return fmt.Sprintf("bad text in line %d", report.Line)
	case NotARun:
		return fmt.Sprintf("not a run at line %d", report.Line)
	default:
		return "no memory"
	}
}
