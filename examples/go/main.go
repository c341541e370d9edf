// Makes a key of a password and a checksum of the salt under it, by cgo, and prints both:
//
//	go run main.go ETYPE CKSUMTYPE SALTHEX <PASSWORD
//
// The password is what standard input has, without a line feed at its end, and at most 1024 octets.
// It does not stand in the arguments, since other users of the machine see those. The exit status is
// 1 if the library refuses or the password cannot be read, and 2 if the arguments are wrong.
//
// PKG_CONFIG_PATH names the folder of krbc.pc, and LD_LIBRARY_PATH that of libkrbc.so.2, where they
// are not where the system looks.
package main

/*
#cgo pkg-config: krbc
#include <krb.h>
*/
import "C"

import (
	"bytes"
	"encoding/hex"
	"errors"
	"fmt"
	"io"
	"os"
	"strconv"
	"unsafe"
)

const longestPassword = 1024

// octets returns the pointer and the count of a slice as C takes them: of an empty one null and 0.
func octets(slice []byte) (*C.uint8_t, C.size_t) {
	if len(slice) == 0 {
		return nil, 0
	}
	return (*C.uint8_t)(unsafe.Pointer(&slice[0])), C.size_t(len(slice))
}

// answer gives a call its room, and cuts it to what the call answers.
func answer(room C.size_t, call func(out *C.uint8_t, room C.size_t, size *C.size_t) C.krb_status) ([]byte, error) {
	out := make([]byte, room)
	var size C.size_t
	at, count := octets(out)
	if status := call(at, count, &size); status != C.KRB_DONE {
		return nil, errors.New(C.GoString(C.krb_status_text(status)))
	}
	return out[:size], nil
}

// stringToKey returns the key of a password and a salt.
func stringToKey(etype C.int32_t, password, salt []byte) ([]byte, error) {
	return answer(C.krb_key_size(etype), func(out *C.uint8_t, room C.size_t, size *C.size_t) C.krb_status {
		passwordAt, passwordSize := octets(password)
		saltAt, saltSize := octets(salt)
		return C.krb_string_to_key(etype, passwordAt, passwordSize, saltAt, saltSize, out, room, size)
	})
}

// checksum returns the checksum of a message under a key, for key usage 7.
func checksum(cksumtype C.int32_t, key, message []byte) ([]byte, error) {
	return answer(C.krb_checksum_size(cksumtype), func(out *C.uint8_t, room C.size_t, size *C.size_t) C.krb_status {
		keyAt, keySize := octets(key)
		messageAt, messageSize := octets(message)
		return C.krb_checksum(cksumtype, keyAt, keySize, 7, messageAt, messageSize, out, room, size)
	})
}

// readPassword reads a password to the end of the input.
func readPassword(input io.Reader) ([]byte, error) {
	password, err := io.ReadAll(io.LimitReader(input, longestPassword+2))
	password = bytes.TrimSuffix(password, []byte("\n"))
	if err == nil && len(password) > longestPassword {
		err = fmt.Errorf("the password has more than %d octets", longestPassword)
	}
	return password, err
}

// stop ends the program with a status, after a line that says why.
func stop(status int, err error) {
	fmt.Fprintln(os.Stderr, "main:", err)
	os.Exit(status)
}

func main() {
	if len(os.Args) != 4 {
		stop(2, errors.New("usage: main ETYPE CKSUMTYPE SALTHEX <PASSWORD"))
	}
	etype, wrongEtype := strconv.ParseInt(os.Args[1], 10, 32)
	cksumtype, wrongCksumtype := strconv.ParseInt(os.Args[2], 10, 32)
	salt, wrongSalt := hex.DecodeString(os.Args[3])
	for _, err := range []error{wrongEtype, wrongCksumtype, wrongSalt} {
		if err != nil {
			stop(2, err)
		}
	}
	password, err := readPassword(os.Stdin)
	if err != nil {
		stop(1, err)
	}
	key, err := stringToKey(C.int32_t(etype), password, salt)
	if err != nil {
		stop(1, err)
	}
	sum, err := checksum(C.int32_t(cksumtype), key, salt)
	if err != nil {
		stop(1, err)
	}
	if _, err := fmt.Printf("%x\n%x\n", key, sum); err != nil {
		stop(1, err)
	}
}
