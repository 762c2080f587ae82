// A loop without an end. The bound on ticks ends the run.
void uMain::main() {
    for (int i = 0; ; i++) ;
}
