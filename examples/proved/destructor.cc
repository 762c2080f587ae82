_Task T { void main() { _Accept(~T) { cout << "told "; } cout << "rest "; } public: ~T() { cout << "destroyed" << endl; } };
void uMain::main() { T t; cout << "block "; }
