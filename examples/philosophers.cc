// Three philosophers, each of whom takes the fork on the left first. A fork is a task that accepts up and down in turn. Once each
// has a fork in hand, nobody gets a second one: a deadlock.
_Task Fork {
    void main() {
        for (;;) {
            _Accept (~Fork) {
                break;
            } or _Accept (up) {
                _Accept (down);
            }
        }
    }
  public:
    void up() { }
    void down() { }
};

_Task Philosopher {
    Fork & left;
    Fork & right;
    void main() {
        left.up();
        yield();
        right.up();
        cout << "eats" << endl;
        right.down();
        left.down();
    }
  public:
    Philosopher(Fork & left, Fork & right) : left(left), right(right) { }
};

void uMain::main() {
    Fork a, b, c;
    Philosopher one(a, b), two(b, c), three(c, a);
}

// Its journal, with one processor, from where all forks are made. Objects 1 to 3 are the forks, tasks 4 to 6 the philosophers:
//
//     accept 0 1 1 1 0 3 0 0 6      each fork accepts its end and up: both clauses (3), open
//     ..
//     call 0 4 1 1 1 0 0 0 22       task 4 calls up of fork 1
//     admit 0 4 0 1 1 0 0 0 0       and is accepted: it has that fork
//     leave 0 4 0 1 0 0 0 0 22
//     admit 0 1 0 1 3 2 0 0 0       the fork comes back; from now on it accepts down alone
//     yield 0 4 0 0 0 0 0 0 23
//     ..                            so do tasks 5 and 6, with the forks 2 and 3
//     accept 0 1 0 1 1 1 0 0 9      fork 1 accepts down, in statement 1
//     dispatch 0 4 0 0 0 0 0 0 0
//     call 0 4 1 2 1 0 0 0 24       task 4 calls up of fork 2, which task 5 has: no admit follows
//
// and so for tasks 5 and 6, up to `deadlock`. The last `call` lines tell the circle: task 4 wants fork 2, 5 wants 3, and 6 wants 1.
