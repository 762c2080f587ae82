// A coroutine that takes a text byte by byte and counts words: where it stands in the text is where it stands in its code.
_Coroutine Words {
    char byte;
    int count;
    void main() {
        for (;;) {
            while (byte == ' ') suspend();
            count++;
            while (byte != ' ') suspend();
        }
    }
  public:
    void put(char next) {
        byte = next;
        resume();
    }
    int get() { return count; }
};

void uMain::main() {
    Words words;
    for (;;) {
        char byte;
        cin >> byte;
        if (cin.fail()) break;
        if (byte == '.') byte = ' ';
        words.put(byte);
    }
    cout << words.get() << " words" << endl;
}
