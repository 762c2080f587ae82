// Reads two numbers and divides the first by the second; by zero the run ends with a fault.
void uMain::main() {
    int a, b;
    cin >> a >> b;
    cout << a << " / " << b << " = " << a / b << endl;
    cout << a << " % " << b << " = " << a % b << endl;
}
