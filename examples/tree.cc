// Adds up numbers over a tree of tasks: each task halves its part, hands each half to a task of its own, and adds what they found.
_Task Adder {
    int from, to, sum;
    void main() {
        if (to - from == 1) {
            sum = from * from;
        } else {
            int middle = (from + to) / 2;
            Adder low(from, middle), high(middle, to);
            sum = low.get() + high.get();
        }
    }
  public:
    Adder(int from, int to) : from(from), to(to) { }
    int get() { return sum; }
};

void uMain::main() {
    Adder all(1, 9);
    cout << all.get() << endl;
}

// Its journal, with one processor:
//
//     make 0 0 1 1 1 0 0 0 19       object 1 is that of the first adder
//     spawn 0 0 0 1 1 0 0 0 19      which begins as task 1: 1 is in a
//     call 0 0 1 1 1 0 0 0 20       task 0 calls get; the adder is inside its own object until its main has ended, so task 0 waits
//     dispatch 0 1 0 0 0 0 0 0 0
//     make 0 1 1 2 1 0 0 0 9        task 1 makes two adders of its own, tasks 2 and 3
//     spawn 0 1 0 2 2 0 0 0 9
//     make 0 1 1 3 1 0 0 0 9
//     spawn 0 1 0 3 3 0 0 0 9
//     call 0 1 1 2 1 0 0 0 10       and waits for the first of them
//
// So get tells the sum of what is done: nobody has to ask whether it is. There are 15 adders, of which 8 have one number each.
