// A bank: tellers take money out of one account and put it into another. A teller is inside one account at a time, so no circle
// can arise; what is on its way is in the teller's hands.
_Event Short {
  public:
    int missing;
    Short(int missing) : missing(missing) { }
};

_Monitor Account {
    int balance;
  public:
    Account(int balance) : balance(balance) { }
    void put(int amount) { balance += amount; }
    int take(int amount) {
        if (balance < amount) _Throw Short(amount - balance);
        balance -= amount;
        return amount;
    }
    int get() { return balance; }
};

_Task Teller {
    Account & from;
    Account & to;
    int amount;
    void main() {
        for (int i = 0; i < 3; i++) {
            try {
                to.put(from.take(amount));
            } catch (Short & e) {
                osacquire(cout) << "missing " << e.missing << endl;
            }
        }
    }
  public:
    Teller(Account & from, Account & to, int amount) : from(from), to(to), amount(amount) { }
};

void uMain::main() {
    Account ann(100), ben(0), cleo(20);
    {
        Teller one(ann, ben, 20), two(ann, cleo, 10), three(cleo, ben, 30);
    }
    cout << ann.get() << ' ' << ben.get() << ' ' << cleo.get() << endl;
}

// Its journal, with one processor:
//
//     make 0 0 1 1 1 0 0 0 40       object 1, ann: the tick is that of its constructor, and task 0 is inside
//     made 0 0 0 1 0 0 0 0 40       it is built, and free
//     ..                            ben and cleo are objects 2 and 3; the tellers are objects 4 to 6, with the tasks 1 to 3
//     call 0 0 0 6 0 0 0 0 41       the inner block ends: task 0 calls the destructor of the last teller, and waits
//     dispatch 0 1 0 0 0 0 0 0 0    the first teller
//     call 0 1 2 1 2 0 0 0 29       calls take (member 2) of ann, after two ticks: a turn and a call
//     admit 0 1 0 1 0 0 0 0 0       nobody is inside
//     leave 0 1 0 1 0 0 0 0 29
//     call 0 1 1 2 1 0 0 0 29       and only then put (member 1) of ben
//
// Further down `leave 0 3 1 3 1 0 0 0 29` has a 1 in a: the event Short leaves the call of cleo's take, and so task 3 leaves cleo.
