// Raised where a pool is empty, mended by whoever knows more, or given up. A resumption comes back to the raise; a throw does not.
_Event Empty {
  public:
    int wanted;
    Empty(int wanted) : wanted(wanted) { }
};

class Pool {
    int left;
  public:
    Pool(int left) : left(left) { }
    void fill(int more) { left += more; }
    void take(int count) {
        if (left < count) _Resume Empty(count - left);
        if (left < count) _Throw Empty(count - left);
        left -= count;
        cout << "took " << count << ", left " << left << endl;
    }
};

void uMain::main() {
    Pool pool(5);
    int reserve = 4;
    try {
        pool.take(3);
        pool.take(4);
        pool.take(9);
        cout << "never" << endl;
    } _CatchResume (Empty & e) {
        cout << "wanted " << e.wanted << ", reserve " << reserve << endl;
        if (e.wanted <= reserve) {
            pool.fill(e.wanted);
            reserve -= e.wanted;
        }
    } catch (Empty & e) {
        cout << "given up, " << e.wanted << " wanted" << endl;
    }
}
