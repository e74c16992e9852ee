package exprlang

import (
	"context"
	"fmt"
	"runtime"
	"sync"
	"sync/atomic"
	"testing"
	"time"
)

// kept returns how many engines are idle and lent, and how many programs the idle ones keep.
func kept() (idle, lent, programs int) {
	pool.Lock()
	defer pool.Unlock()
	for _, e := range pool.idle {
		programs += len(e.copies)
	}
	return len(pool.idle), len(pool.lent), programs
}

// collected has the garbage collected, up to when no engine keeps a program.
func collected(t *testing.T) {
	for i := 0; i < 500; i++ {
		runtime.GC()
		if idle, lent, programs := kept(); idle <= 1 && lent == 0 && programs == 0 {
			return
		}
		time.Sleep(10 * time.Millisecond)
	}
	idle, lent, programs := kept()
	t.Errorf("%d idle engines, %d lent ones, %d programs", idle, lent, programs)
}

// Programs that goroutines share: each result is that of its own env.
func TestGoroutines(t *testing.T) {
	double := Function("double", func(params ...any) (any, error) {
		runtime.Gosched()
		return params[0].(int) * 2, nil
	})
	var programs []*Program
	for _, source := range []string{"x * 3 + len(name)", "double(x) + double(1)", "filter(list, # > x)", "name matches '^a+$'", "x +", "$env.x"} {
		if p, err := Compile(source, double); err == nil {
			programs = append(programs, p)
		}
	}
	if len(programs) != 5 {
		t.Fatal(len(programs))
	}
	rounds := 60
	if testing.Short() {
		rounds = 10
	}
	var all sync.WaitGroup
	var ran int64
	for g := 0; g < 16; g++ {
		all.Add(1)
		go func(g int) {
			defer all.Done()
			for i := 0; i < rounds; i++ {
				x := g*1000 + i
				env := map[string]any{"x": x, "name": "aaa", "list": []int{x - 1, x, x + 1}, "rest": 1.5}
				wanted := []any{x*3 + 3, x*2 + 2, []any{x + 1}, true, nil}
				for j, p := range programs {
					if p.UsesEnv() {
						delete(env, "rest")
						wanted[j] = x
					}
					out, err := Run(p, env)
					if err != nil || printed(out) != printed(wanted[j]) {
						t.Errorf("%s: %v, %v, and not %v", p.Source(), out, err, wanted[j])
					}
					atomic.AddInt64(&ran, 1)
				}
				if out, err := Eval(fmt.Sprintf("x + %d", g), env); err != nil || out != x+g {
					t.Error(out, err)
				}
				if _, err := Run(programs[0], nil); err == nil {
					t.Error("x isn't there")
				}
			}
		}(g)
	}
	all.Wait()
	if ran != int64(16*rounds*len(programs)) {
		t.Error(ran)
	}
	runtime.KeepAlive(programs)
}

// Each goroutine gets what its own run used.
func TestUsedByGoroutines(t *testing.T) {
	p, err := Compile("len(filter(1..n, {# > 0})) == n")
	if err != nil {
		t.Fatal(err)
	}
	ctx := context.Background()
	var alone []Used
	for g := 0; g < 8; g++ {
		_, used, err := RunUsed(ctx, p, map[string]any{"n": 10 * g})
		if err != nil || g > 0 && used.Steps <= alone[g-1].Steps {
			t.Error(used, err)
		}
		alone = append(alone, used)
	}
	var all sync.WaitGroup
	for g := range alone {
		all.Add(1)
		go func(g int) {
			defer all.Done()
			for i := 0; i < 100; i++ {
				if out, used, err := RunUsed(ctx, p, map[string]any{"n": 10 * g}); out != true || used != alone[g] || err != nil {
					t.Error(out, used, alone[g], err)
				}
			}
		}(g)
	}
	all.Wait()
	runtime.KeepAlive(p)
}

// More runs at once than engines may be on threads, each inside a function of another.
func TestManyRunsAtOnce(t *testing.T) {
	runs := 3 * pool.most
	var inside sync.WaitGroup
	inside.Add(runs)
	inner, _ := Compile("x + 1")
	p, _ := Compile("f(x)", Function("f", func(params ...any) (any, error) {
		inside.Done()
		inside.Wait()
		return Run(inner, map[string]any{"x": params[0]})
	}))
	var all sync.WaitGroup
	for i := 0; i < runs; i++ {
		all.Add(1)
		go func(i int) {
			defer all.Done()
			if out, err := Run(p, map[string]any{"x": i}); out != i+1 || err != nil {
				t.Error(out, err)
			}
		}(i)
	}
	all.Wait()
	pool.Lock()
	if pool.running != 0 || len(pool.lent) != 0 {
		t.Error(pool.running, len(pool.lent))
	}
	pool.Unlock()
	runtime.KeepAlive(p)
	runtime.KeepAlive(inner)
}

// What engines keep goes with the programs.
func TestGarbage(t *testing.T) {
	collected(t)
	func() {
		var programs []*Program
		for i := 0; i < 100; i++ {
			p, err := Compile(fmt.Sprintf("x + %d", i), FixedZone("X", 60))
			if err != nil {
				t.Fatal(err)
			}
			programs = append(programs, p)
		}
		if _, _, count := kept(); count != 100 {
			t.Error(count, "programs")
		}
		runtime.KeepAlive(programs)
	}()
	collected(t)
	if _, err := Compile("1 +"); err == nil {
		t.Error("no expression")
	}
	if _, err := Compile("x", Env(nil)); err == nil {
		t.Error("no name")
	}
	Eval("x + 1", map[string]any{"x": 1})
	Eval("x + 1", nil)
	if _, _, count := kept(); count != 0 {
		t.Error(count, "programs")
	}
	// a program that is dropped while its engine is borrowed
	p, _ := Compile("f()", Function("f", func(...any) (any, error) { return 1, nil }))
	e, err := borrow()
	if err != nil {
		t.Fatal(err)
	}
	if _, err := e.copy(p); err != nil {
		t.Error(err)
	}
	p.forget()
	if len(e.copies) == 0 {
		t.Error("a borrowed engine is its borrower's")
	}
	e.giveBack()
	collected(t)
}

// Memory stays as it is over many runs that end in every way.
func TestMemory(t *testing.T) {
	if isInstrumented {
		t.Skip("a checker takes memory too")
	}
	f := Function("f", func(params ...any) (any, error) {
		switch params[0] {
		case 0:
			return nil, fmt.Errorf("no")
		case 1:
			panic("no")
		}
		return 1.5, nil
	})
	run := func() {
		for i := 0; i < 3; i++ {
			Eval("f(i)", map[string]any{"i": i, "rest": 1}, f)
		}
		Eval("[repeat('a', 100000), f(2)]", nil, f)
		Eval("repeat('a', 1000000)", nil)
		Eval("map(1..1000, [#])", nil)
		Eval("g()", map[string]any{"g": func() int { return 1 }})
		Eval("len(1..2000000)", nil)
		Eval("x", map[string]any{"x": []any{time.Date(20000, 1, 1, 0, 0, 0, 0, time.UTC)}})
		Compile("1 +")
	}
	const turns = 300
	for i := 0; i < turns/10; i++ {
		run()
	}
	before := resident(t)
	for i := 0; i < turns; i++ {
		run()
	}
	if after := resident(t); after > before+16<<20 {
		t.Errorf("%d bytes became %d", before, after)
	}
}
