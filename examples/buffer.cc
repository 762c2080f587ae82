// A bounded buffer: who finds it full waits at one condition, who finds it empty at the other.
const int SIZE = 2;

_Monitor Buffer {
    uCondition notFull, notEmpty;
    int slots[SIZE], first, count;
  public:
    void put(int item) {
        if (count == SIZE) notFull.wait();
        slots[(first + count) % SIZE] = item;
        count++;
        notEmpty.signal();
    }
    int take() {
        if (count == 0) notEmpty.wait();
        int item = slots[first];
        first = (first + 1) % SIZE;
        count--;
        notFull.signal();
        return item;
    }
};

_Task Producer {
    Buffer & buffer;
    void main() { for (int i = 1; i <= 5; i++) buffer.put(i); }
  public:
    Producer(Buffer & buffer) : buffer(buffer) { }
};

_Task Consumer {
    Buffer & buffer;
    void main() {
        for (int i = 1; i <= 5; i++) cout << buffer.take() << ' ';
        cout << endl;
    }
  public:
    Consumer(Buffer & buffer) : buffer(buffer) { }
};

void uMain::main() {
    Buffer buffer;
    Producer producer(buffer);
    Consumer consumer(buffer);
}
