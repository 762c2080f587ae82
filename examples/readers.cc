// Readers and writers: a page may be read by many at once, and is written by one alone. Who must wait accepts the end of what is
// under way, so nobody needs a condition.
_Monitor Page {
    int readers;
    bool written;
  public:
    void endRead() { readers--; }
    void endWrite() { written = false; }
    void read() {
        if (written) _Accept (endWrite);
        readers++;
        cout << 'r' << readers << ' ';
    }
    void write() {
        if (written) {
            _Accept (endWrite);
        } else {
            while (readers > 0) _Accept (endRead);
        }
        written = true;
        cout << "w ";
    }
};

_Task Reader {
    Page & page;
    void main() {
        page.read();
        yield();
        page.endRead();
    }
  public:
    Reader(Page & page) : page(page) { }
};

_Task Writer {
    Page & page;
    void main() {
        page.write();
        yield();
        page.endWrite();
    }
  public:
    Writer(Page & page) : page(page) { }
};

void uMain::main() {
    Page page;
    {
        Reader one(page), two(page);
        Writer three(page);
        Reader four(page);
        Writer five(page);
    }
    cout << endl;
}

// Its journal, with one processor, from where the first reader has read:
//
//     leave 0 1 0 1 0 0 0 0 28      task 1, a reader, leaves the page; it still counts as a reader
//     ..                            task 2 is the second one
//     call 0 3 1 1 4 0 0 0 39       task 3, a writer, calls write, member 4
//     admit 0 3 0 1 0 0 0 0 0       nobody is inside: it comes in
//     accept 0 3 1 1 2 1 0 0 18     and accepts endRead, in statement 2, since there are readers; the accept is open
//     dispatch 0 4 0 0 0 0 0 0 0
//     call 0 4 1 1 3 0 0 0 28       task 4, a reader, is not accepted, and waits: no reader overtakes the writer
//     dispatch 0 5 0 0 0 0 0 0 0
//     call 0 5 1 1 4 0 0 0 39       nor does the other writer
//     dispatch 0 1 0 0 0 0 0 0 0
//     call 0 1 1 1 1 0 0 0 30       task 1 calls endRead
//     admit 0 1 0 1 1 0 0 0 0       and is accepted: way 1
//     leave 0 1 0 1 0 0 0 0 30
//     admit 0 3 0 1 3 1 0 0 0       the writer comes back, and accepts endRead once more, for the second reader
