_Event Knock { };
_Task Sleeper { void main() { } };
void uMain::main() {
    Sleeper sleeper;
    for (;;) {
        _Resume Knock() _At sleeper;
        cout << '.';
    }
}
