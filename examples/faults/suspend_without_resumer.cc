_Coroutine Source {
    void main() { }
  public:
    void stop() { suspend(); }
};
void uMain::main() {
    Source source;
    source.stop();
}
