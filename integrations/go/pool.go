package exprlang

import (
	"runtime"
	"sync"
)

// pool has the engines of the process. A call borrows one and gives it back.
var pool = struct {
	sync.Mutex
	// ready says that another engine may run.
	ready *sync.Cond
	// running counts the engines that run, each on a thread of the system. A function of the host doesn't count meanwhile.
	running, most int
	// idle are the engines that no call uses. The next call borrows the last one.
	idle []*engine
	lent map[*engine]struct{}
}{
	most: max(64, 2*runtime.NumCPU()),
	lent: map[*engine]struct{}{},
}

func init() { pool.ready = sync.NewCond(&pool) }

func max(a, b int) int {
	if a > b {
		return a
	}
	return b
}

// enter waits until another engine may run. The pool is locked.
func enter() {
	for pool.running >= pool.most {
		pool.ready.Wait()
	}
	pool.running++
}

// leave lets another engine run. The pool is locked.
func leave() {
	pool.running--
	pool.ready.Signal()
}

// borrow takes an engine out of the pool, or opens one.
func borrow() (*engine, error) {
	pool.Lock()
	enter()
	if last := len(pool.idle) - 1; last >= 0 {
		e := pool.idle[last]
		pool.idle = pool.idle[:last]
		e.counts = true
		pool.lent[e] = struct{}{}
		pool.Unlock()
		return e, nil
	}
	pool.Unlock()
	e, err := openEngine()
	pool.Lock()
	defer pool.Unlock()
	if err != nil {
		leave()
		return nil, err
	}
	e.counts = true
	pool.lent[e] = struct{}{}
	return e, nil
}

// pause has an engine not count among those that run, while a function does.
func (e *engine) pause() {
	pool.Lock()
	defer pool.Unlock()
	e.counts = false
	leave()
}

// resume has an engine count again.
func (e *engine) resume() {
	pool.Lock()
	defer pool.Unlock()
	enter()
	e.counts = true
}

// giveBack puts an engine back into the pool.
func (e *engine) giveBack() {
	e.settle()
	pool.Lock()
	if e.counts {
		e.counts = false
		leave()
	}
	for _, token := range e.waiting {
		e.forget(token)
	}
	e.waiting = nil
	delete(pool.lent, e)
	pool.idle = append(pool.idle, e)
	var spare []*engine
	if len(e.copies) == 0 {
		spare = takeSpare()
	}
	pool.Unlock()
	closeAll(spare)
}

// forgetEverywhere drops what engines keep of a program.
func forgetEverywhere(token uint64) {
	pool.Lock()
	for e := range pool.lent {
		e.waiting = append(e.waiting, token)
	}
	for _, e := range pool.idle {
		e.forget(token)
	}
	spare := takeSpare()
	pool.Unlock()
	closeAll(spare)
}

// takeSpare takes the idle engines that keep nothing out of the pool, but for one. The pool is locked.
func takeSpare() (spare []*engine) {
	hasSpare := false
	kept := pool.idle[:0]
	for _, e := range pool.idle {
		if len(e.copies) == 0 && hasSpare {
			spare = append(spare, e)
			continue
		}
		hasSpare = hasSpare || len(e.copies) == 0
		kept = append(kept, e)
	}
	for i := len(kept); i < len(pool.idle); i++ {
		pool.idle[i] = nil
	}
	pool.idle = kept
	return spare
}

func closeAll(engines []*engine) {
	for _, e := range engines {
		e.close()
	}
}
