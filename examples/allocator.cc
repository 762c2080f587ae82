// Buckets are lent out of a store, and whoever comes first is served first: a big wish at the front is not overtaken by small ones.
_Monitor Store {
    uCondition queue;
    int left;
  public:
    Store(int left) : left(left) { }
    void borrow(int count) {
        if (!queue.empty() || left < count) queue.wait(count);
        left -= count;
        cout << '-' << count << ' ';
    }
    void give(int count) {
        left += count;
        cout << '+' << count << ' ';
        while (!queue.empty() && queue.front() <= left) queue.signalBlock();
    }
};

_Task Painter {
    Store & store;
    int count;
    void main() {
        store.borrow(count);
        yield();
        store.give(count);
    }
  public:
    Painter(Store & store, int count) : store(store), count(count) { }
};

void uMain::main() {
    Store store(4);
    { Painter a(store, 3), b(store, 4), c(store, 1), d(store, 2); }
    cout << endl;
}

// Its journal, with one processor, from where the first painter brings its buckets back:
//
//     call 0 1 1 1 2 0 0 0 25       task 1 calls give, member 2
//     admit 0 1 0 1 0 0 0 0 0
//     print 0 1 0 0 1 43 0 0 14
//     print 0 1 0 0 0 3 0 0 14
//     print 0 1 0 0 1 32 0 0 14
//     empty 0 1 0 1 0 0 0 0 15      condition 0 is not empty (0 in b)
//     front 0 1 0 1 0 4 0 0 15      the front waiter's number is 4, and so many are left now
//     sigblock 0 1 1 1 0 1 0 0 15   the tick is that of the turn; somebody waits (1 in b): task 1 goes onto the stack
//     admit 0 2 0 1 4 0 0 0 0       and task 2 comes in, by way 4
//     dispatch 0 2 0 0 0 0 0 0 0
//     print 0 2 0 0 1 45 0 0 10
//     print 0 2 0 0 0 4 0 0 10
//     print 0 2 0 0 1 32 0 0 10
//     leave 0 2 0 1 0 0 0 0 23      it leaves, and
//     admit 0 1 0 1 3 0 0 0 0       task 1 comes back from the stack
