_Event Lost { };
void uMain::main() {
    _Throw Lost();
}
