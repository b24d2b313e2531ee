// keys N: goroutines add keys and read them back, beside others that spin, so that the runtime interrupts threads by
// signals, and collects garbage.
package main

import (
	"fmt"
	"os"
	"runtime"
	"strconv"
	"sync"
	"sync/atomic"
	"syscall"
	"unsafe"
)

const (
	addKey, keyctl    = 248, 250
	read              = 11
	sessionKeyring    = ^uintptr(2) // -3
	writers, spinners = 8, 3
)

func bytes(text string) unsafe.Pointer {
	b := append([]byte(text), 0)
	return unsafe.Pointer(&b[0])
}

func add(description, payload string) (uintptr, error) {
	key, _, e := syscall.Syscall6(addKey, uintptr(bytes("user")), uintptr(bytes(description)), uintptr(bytes(payload)),
		uintptr(len(payload)), sessionKeyring, 0)
	if e != 0 {
		return 0, e
	}
	return key, nil
}

func payloadOf(key uintptr) (string, error) {
	b := make([]byte, 4096)
	length, _, e := syscall.Syscall6(keyctl, read, key, uintptr(unsafe.Pointer(&b[0])), uintptr(len(b)), 0, 0)
	if e != 0 {
		return "", e
	}
	return string(b[:length]), nil
}

func write(writer, count int, wrong *int64) {
	for i := 0; i < count; i++ {
		payload := fmt.Sprintf("payload %d of %d", i, writer)
		key, err := add(fmt.Sprintf("go %d", writer), payload)
		got, err2 := "", err
		if err == nil {
			got, err2 = payloadOf(key)
		}
		if err2 != nil || got != payload {
			atomic.AddInt64(wrong, 1)
		}
		if i%64 == 0 {
			runtime.GC()
		}
	}
}

func spin(stop *int32) {
	for x := 0; atomic.LoadInt32(stop) == 0; x++ {
	}
}

func main() {
	count, _ := strconv.Atoi(os.Args[1])
	var wrong int64
	var stop int32
	var all sync.WaitGroup
	for i := 0; i < spinners; i++ {
		go spin(&stop)
	}
	for i := 0; i < writers; i++ {
		all.Add(1)
		go func(i int) {
			defer all.Done()
			write(i, count/writers, &wrong)
		}(i)
	}
	all.Wait()
	atomic.StoreInt32(&stop, 1)
	fmt.Println(wrong, "wrong")
}
