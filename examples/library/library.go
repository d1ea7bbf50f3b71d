// A filter for two rules, in Go: CGO_LDFLAGS=FOLDER/libccell.a CGO_CFLAGS=-IINCLUDE go run library.go
package main

/*
#include <ccell.h>
*/
import "C"

import (
	"encoding/binary"
	"fmt"
	"unsafe"
)

const (
	allow = 0x7fff0000
	eperm = 0x50001
)

func main() {
	rules := []C.struct_ccell_rule{
		{machine: C.CCELL_X86_64, number: 1, action: allow, count: 1},
		{machine: C.CCELL_X86_64, number: 231, action: allow},
	}
	rules[0].conditions[0] = C.struct_ccell_condition{argument: 0, operator_: C.CCELL_EQ, value: 1}
	machines := []C.uint32_t{C.CCELL_X86_64}
	filter := make([]byte, C.CCELL_MOST_BYTES)
	var told C.struct_ccell_told
	status := C.ccell_filter_for_rules(C.CCELL_X86_64, eperm, &machines[0], 1, &rules[0], C.size_t(len(rules)),
		(*C.uint8_t)(unsafe.Pointer(&filter[0])), C.size_t(len(filter)), &told)
	fmt.Println("status", status)
	for _, of := range [][2]uint64{{1, 1}, {1, 2}, {231, 0}} {
		record := make([]byte, 64)
		binary.LittleEndian.PutUint32(record, uint32(of[0]))
		binary.LittleEndian.PutUint32(record[4:], C.CCELL_X86_64)
		binary.LittleEndian.PutUint64(record[16:], of[1])
		var verdict C.uint32_t
		C.ccell_verdict((*C.uint8_t)(unsafe.Pointer(&filter[0])), told.count, (*C.uint8_t)(unsafe.Pointer(&record[0])), 64, &verdict)
		fmt.Printf("%d %d %#x\n", of[0], of[1], verdict)
	}
}
