_Monitor Queue {
    uCondition waiting;
  public:
    int next() { return waiting.front(); }
};
void uMain::main() {
    Queue queue;
    cout << queue.next();
}
