// etcd_clients KIND CLIENTS COUNT ENDPOINT..: CLIENTS clients, each with a connection of its own, make COUNT calls in all to an etcd
// cluster, as bench/group_clients.c does to a group: with the KIND put a call sets one of 1,024 keys of 8 bytes to a value of 16 bytes,
// with get it reads one, and each client makes its next call as soon as the one before is answered. All call the cluster's leader, which
// needs the fewest steps. It prints the same three numbers.
package main

import (
	"context"
	"fmt"
	"os"
	"sort"
	"strconv"
	"sync"
	"time"

	"go.etcd.io/etcd/clientv3"
)

const keys = 1024

func fail(err error) {
	if err != nil {
		fmt.Fprintln(os.Stderr, "etcd_clients:", err)
		os.Exit(1)
	}
}

func number(word string) int {
	value, err := strconv.Atoi(word)
	fail(err)
	return value
}

func connected(endpoint string) *clientv3.Client {
	client, err := clientv3.New(clientv3.Config{Endpoints: []string{endpoint}, DialTimeout: 10 * time.Second})
	fail(err)
	return client
}

// The endpoint of the leader, once there is one.
func leader(endpoints []string) string {
	for tries := 0; tries < 200; tries++ {
		for _, each := range endpoints {
			client := connected(each)
			limit, cancel := context.WithTimeout(context.Background(), time.Second)
			status, err := client.Status(limit, each)
			cancel()
			client.Close()
			if err == nil && status.Leader == status.Header.MemberId && status.Leader != 0 {
				return each
			}
		}
		time.Sleep(50 * time.Millisecond)
	}
	fail(fmt.Errorf("no member leads"))
	return ""
}

func call(client *clientv3.Client, gets bool, k int) {
	limit, cancel := context.WithTimeout(context.Background(), 10*time.Second)
	defer cancel()
	key := fmt.Sprintf("key-%04d", k%keys)
	var err error
	if gets {
		_, err = client.Get(limit, key)
	} else {
		_, err = client.Put(limit, key, fmt.Sprintf("value-%010d", k))
	}
	fail(err)
}

func main() {
	if len(os.Args) < 5 || os.Args[1] != "put" && os.Args[1] != "get" {
		fmt.Fprintln(os.Stderr, "usage: etcd_clients put|get CLIENTS COUNT ENDPOINT..")
		os.Exit(1)
	}
	gets, count := os.Args[1] == "get", number(os.Args[3])
	clients := make([]*clientv3.Client, number(os.Args[2]))
	endpoint := leader(os.Args[4:])
	for i := range clients {
		clients[i] = connected(endpoint)
		call(clients[i], true, i)
	}
	took := make([]time.Duration, count)
	var running sync.WaitGroup
	begun := time.Now()
	for i := range clients {
		running.Add(1)
		go func(i int) {
			defer running.Done()
			for k := i; k < count; k += len(clients) {
				moment := time.Now()
				call(clients[i], gets, k)
				took[k] = time.Since(moment)
			}
		}(i)
	}
	running.Wait()
	passed := time.Since(begun)
	sort.Slice(took, func(i, j int) bool { return took[i] < took[j] })
	fmt.Println(passed.Microseconds(), took[(count-1)/2].Nanoseconds(), took[(count*99+99)/100-1].Nanoseconds())
}
