// Events at another task. A worker counts, and looks for events at its yield() alone: a question is answered where it stands, and
// an alarm ends the work.
_Event Question { };
_Event Alarm {
  public:
    char by;
    Alarm(char by) : by(by) { }
};

_Task Worker {
    int done;
    void main() {
        try {
            _Enable {
                for (;;) {
                    done++;
                    yield();
                }
            }
        } _CatchResume (Question &) {
            cout << "at " << done << endl;
        } catch (Alarm & e) {
            cout << "alarm by " << e.by << " at " << done << endl;
        }
    }
};

void uMain::main() {
    Worker worker;
    yield();
    _Resume Question() _At worker;
    yield();
    yield();
    _Resume Question() _At worker;
    _Resume Alarm('m') _At worker;
    cout << "raised" << endl;
}

// Its journal, with one processor:
//
//     make 0 0 0 1 1 0 0 0 29       object 1, the worker; task 1
//     spawn 0 0 0 1 1 0 0 0 29
//     yield 0 0 0 0 0 0 0 0 30
//     dispatch 0 1 0 0 0 0 0 0 0
//     poll 0 1 0 0 0 -1 0 0 14      the worker enables all events (-1 is all 64 bits), and looks: none is pending (0 in a)
//     yield 0 1 1 0 0 0 0 0 17
//     dispatch 0 0 0 0 0 0 0 0 0
//     raise 0 0 0 1 1 2 0 0 31      task 0 raises event 2, Question, at task 1 (a); nothing happens there yet
//     yield 0 0 0 0 0 0 0 0 32
//     dispatch 0 1 0 0 0 0 0 0 0
//     poll 0 1 0 0 3 -1 0 0 17      its yield() ends, and it looks again: event 2 (3 in a is one more)
//     print 0 1 0 0 2 0 0 0 21      the handler runs
//     print 0 1 0 0 0 1 0 0 21
//     print 0 1 0 0 1 10 0 0 21
//     poll 0 1 0 0 0 -1 0 0 17      behind a handler it looks once more: nothing is left, and the loop goes on
