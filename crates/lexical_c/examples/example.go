// A function that returns the text of a number in a format, or an error.
package main

// #cgo pkg-config: lexical_c
// #include <lexical.h>
import "C"

import (
	"errors"
	"fmt"
)

func write(value int64, format C.struct_lexical_format) (string, error) {
	var buffer [C.LEXICAL_BUFFER_SIZE]C.char
	count := C.lexical_write_i64(C.int64_t(value), &format, &buffer[0], C.LEXICAL_BUFFER_SIZE)
	if count == 0 {
		return "", errors.New("invalid format")
	}
	return C.GoStringN(&buffer[0], C.int(count)), nil
}

func main() {
	for _, format := range []C.struct_lexical_format{{radix: 16}, C.lexical_standard_format, {radix: 37}} {
		text, err := write(-1234, format)
		if err != nil {
			text = err.Error()
		}
		fmt.Println(text)
	}
}
