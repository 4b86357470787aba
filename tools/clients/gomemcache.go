// Go's gomemcache over all servers of the chain: one of them, and the next one once that fails.
// usage: gomemcache HOST:PORT ..      does some calls, and again after each line of its input
package main

import (
	"bufio"
	"fmt"
	"net"
	"os"
	"sync/atomic"
	"time"

	"github.com/bradfitz/gomemcache/memcache"
)

// Current names one server for all keys. (The library's own list keeps a key at its server, also if that has failed.)
type Current struct {
	servers []net.Addr
	number  uint32
}

func (c *Current) PickServer(string) (net.Addr, error) {
	return c.servers[int(atomic.LoadUint32(&c.number))%len(c.servers)], nil
}

func (c *Current) Each(f func(net.Addr) error) error {
	address, _ := c.PickServer("")
	return f(address)
}

// Next goes to the next server. A call that failed may be made again there, or not: CLIENTS.md says which.
func (c *Current) Next() {
	atomic.AddUint32(&c.number, 1)
}

func connected(servers []string) (*memcache.Client, *Current) {
	current := &Current{}
	for _, it := range servers {
		address, err := net.ResolveTCPAddr("tcp", it)
		if err != nil {
			panic(err)
		}
		current.servers = append(current.servers, address)
	}
	client := memcache.NewFromSelector(current)
	client.Timeout = 7 * time.Second // longer than a failover, in which updates wait
	return client, current
}

func calls(client *memcache.Client) error {
	for _, key := range []string{"a", "b", "n"} {
		if err := client.Delete(key); err != nil && err != memcache.ErrCacheMiss {
			return fmt.Errorf("delete: %w", err)
		}
	}
	if err := client.Set(&memcache.Item{Key: "a", Value: []byte("1"), Flags: 7}); err != nil {
		return fmt.Errorf("set: %w", err)
	}
	if err := client.Add(&memcache.Item{Key: "b", Value: []byte("2")}); err != nil {
		return fmt.Errorf("add: %w", err)
	}
	item, err := client.Get("a")
	if err != nil || string(item.Value) != "1" || item.Flags != 7 {
		return fmt.Errorf("get: %v %w", item, err)
	}
	item.Value = []byte("5")
	if err := client.CompareAndSwap(item); err != nil {
		return fmt.Errorf("cas: %w", err)
	}
	if err := client.CompareAndSwap(item); err != memcache.ErrCASConflict {
		return fmt.Errorf("cas of an old one: %w", err)
	}
	if number, err := client.Increment("a", 2); err != nil || number != 7 {
		return fmt.Errorf("incr: %d %w", number, err)
	}
	items, err := client.GetMulti([]string{"a", "b", "c"})
	if err != nil || len(items) != 2 {
		return fmt.Errorf("get of three: %v %w", items, err)
	}
	return nil
}

func main() {
	client, current := connected(os.Args[1:])
	for lines := bufio.NewScanner(os.Stdin); ; {
		if err := calls(client); err != nil {
			fmt.Println("failed:", err)
			current.Next()
		} else {
			fmt.Println("works")
		}
		if !lines.Scan() {
			return
		}
	}
}
