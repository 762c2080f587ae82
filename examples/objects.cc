// A calculator of sums in postfix form, as `34+5*=`. Each sum has a stack of its own, an object of one turn of the loop, which
// goes with the turn however that ends. A log, to which all stacks refer, counts them.
class Log {
    int begun, ended;
  public:
    ~Log() { cout << begun << " begun, " << ended << " ended" << endl; }
    void begin() { begun++; }
    void end() { ended++; }
};

class Stack {
    Log & log;
    int items[8], count;
  public:
    Stack(Log & log);
    ~Stack();
    void push(int item) { items[count] = item; count++; }
    int pop() { count--; return items[count]; }
    void apply(char op);
};

Stack::Stack(Log & log) : log(log) { log.begin(); }

Stack::~Stack() {
    log.end();
    if (count > 0) cout << count << " left over" << endl;
}

void Stack::apply(char op) {
    int right = pop(), left = pop();
    if (op == '+') push(left + right);
    else if (op == '-') push(left - right);
    else if (op == '*') push(left * right);
    else push(left / right);
}

void uMain::main() {
    Log log;
    for (;;) {
        Stack stack(log);
        char c;
        for (;;) {
            cin >> c;
            if (cin.fail()) return;
            if (c == '=') break;
            if (c >= '0' && c <= '9') stack.push(c - '0');
            else stack.apply(c);
        }
        cout << stack.pop() << endl;
    }
}
