// A cormonitor: its main keeps its place between calls, and each call comes from whatever task. Two sensors hand in numbers; for
// each three of them the main works out their mean.
_Cormonitor Averages {
    int number, mean, means;
    void main() {
        for (;;) {
            int sum = number;
            suspend();
            sum += number;
            suspend();
            mean = (sum + number) / 3;
            means++;
            suspend();
        }
    }
  public:
    void put(int next) {
        number = next;
        resume();
    }
    int last() { return mean; }
    int count() { return means; }
};

_Task Sensor {
    Averages & averages;
    int from;
    void main() { for (int i = 0; i < 6; i++) averages.put(from + i); }
  public:
    Sensor(Averages & averages, int from) : averages(averages), from(from) { }
};

void uMain::main() {
    Averages averages;
    { Sensor cold(averages, 0), warm(averages, 100); }
    cout << averages.count() << " means, the last " << averages.last() << endl;
}

// Its journal, with one processor:
//
//     make 0 0 0 1 1 0 0 0 34       object 1, the cormonitor
//     made 0 0 0 1 0 0 0 0 34       no task begins here: its main waits for a first resume()
//     ..                            the sensors are tasks 1 and 2
//     call 0 1 2 1 1 0 0 0 28       task 1 calls put
//     admit 0 1 0 1 0 0 0 0 0       and is inside: what it resumes, it runs
//     leave 0 1 1 1 0 0 0 0 28      the tick is that of the main's loop, which began in this call; suspend() came back to put
//     call 0 1 2 1 1 0 0 0 28
//     admit 0 1 0 1 0 0 0 0 0
//     leave 0 1 0 1 0 0 0 0 28      here main went on behind its first suspend(), and no turn of the loop began
//
// Switches of coroutines are no acts: the journal tells who is inside, and not where main stands.
