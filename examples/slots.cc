// A bounded buffer as a task that accepts: a call that cannot be served now is not accepted now, and so it waits.
const int SIZE = 2;

_Task Buffer {
    int slots[SIZE], first, count;
    void main() {
        for (;;) {
            _Accept (~Buffer) {
                break;
            } or _When (count < SIZE) _Accept (put) {
                count++;
            } or _When (count > 0) _Accept (take) {
                first = (first + 1) % SIZE;
                count--;
            }
        }
        cout << "closed" << endl;
    }
  public:
    void put(int item) { slots[(first + count) % SIZE] = item; }
    int take() { return slots[first]; }
};

_Task Producer {
    Buffer & buffer;
    void main() { for (int i = 1; i <= 4; i++) buffer.put(i * i); }
  public:
    Producer(Buffer & buffer) : buffer(buffer) { }
};

void uMain::main() {
    Buffer buffer;
    Producer producer(buffer);
    for (int i = 0; i < 4; i++) cout << buffer.take() << ' ';
}

// Its journal, with one processor:
//
//     make 0 0 0 1 1 0 0 0 32       object 1, the buffer; task 1
//     spawn 0 0 0 1 1 0 0 0 32
//     make 0 0 1 2 2 0 0 0 33       object 2, the producer; task 2
//     spawn 0 0 0 2 2 0 0 0 33
//     call 0 0 2 1 2 0 0 0 34       task 0 calls take, member 2, and waits: the buffer is inside its own object
//     dispatch 0 1 0 0 0 0 0 0 0
//     accept 0 1 1 1 0 3 0 0 8      accept statement 0; the clauses 1 and 2 are true (1 + 2 = 3), and not the third: the buffer is
//                                   empty. Nobody calls what is accepted, so the accept is open (0 in d), and task 1 waits on the stack
//     dispatch 0 2 0 0 0 0 0 0 0
//     call 0 2 2 1 1 0 0 0 26       the producer calls put, member 1
//     admit 0 2 0 1 1 0 0 0 0       which is accepted: way 1. The accept is closed by that
//     leave 0 2 0 1 0 0 0 0 26      it leaves, and
//     admit 0 1 0 1 3 2 0 0 0       the buffer comes back from the stack, way 3, with its clause, 2
//
// Then it accepts `put` again (all three are true, 7), and at the third accept `put` no more: 5 is clauses 1 and 3.
