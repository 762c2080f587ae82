// Measures from the input, each from 0 to 100. One that is out of range is mended where it was read, by a resumption; at the end
// of the input an event ends the work, whatever calls stand between.
_Event OutOfRange {
  public:
    int value;
    OutOfRange(int value) : value(value) { }
};

_Event NoMore { };

class Gauge {
    int value;
  public:
    void read() {
        cin >> value;
        if (cin.fail()) _Throw NoMore();
        if (value < 0 || value > 100) _Resume OutOfRange(value);
    }
    void mend(int other) { value = other; }
    int get() { return value; }
};

// the mean of so many measures
int mean(Gauge & gauge, int count) {
    int sum = 0;
    for (int i = 0; i < count; i++) {
        gauge.read();
        sum += gauge.get();
    }
    return sum / count;
}

void uMain::main() {
    Gauge gauge;
    int mended = 0;
    try {
        for (;;) cout << mean(gauge, 3) << ' ';
    } _CatchResume (OutOfRange & e) {
        mended++;
        if (e.value < 0) gauge.mend(0);
        else gauge.mend(100);
    } catch (NoMore &) {
        cout << "mended " << mended << endl;
    }
}
