// Records the run of two pieces with halos, and writes it as a log: examples/halo_exchange.log without its comments.
#include <initializer_list>
#include <iostream>
#include <sstream>
#include <string>
#include <vector>

// The records so far. An event is given when an operation is launched, so that those it waits for are already there.
class Recorder {
public:
    template <typename... Words> void record(const Words &...words) {
        std::ostringstream line;
        const char *gap = "";
        ((line << gap << words, gap = " "), ...);
        records.push_back(line.str());
    }

    template <typename... Words> unsigned operation(std::initializer_list<unsigned> waits, const Words &...words) {
        std::ostringstream list;
        for (unsigned event : waits)
            list << (event == *waits.begin() ? "" : ",") << event;
        record(words..., ++events, waits.size() ? list.str() : "-");
        return events;
    }

    // The number in `end` is known only now, so a log that is cut off shows that it is.
    void write(std::ostream &out) const {
        out << "legion-spy 1\n";
        for (const std::string &line : records)
            out << line << '\n';
        out << "end " << records.size() << '\n';
    }

private:
    std::vector<std::string> records;
    unsigned events = 0;
};

int main() {
    Recorder log;
    log.record("ispace", 1, "0-7"); // the whole, its pieces, the pieces with their halos, and the points that are copied
    log.record("part", 1, 1, "disjoint");
    log.record("part", 2, 1, "aliased");
    const char *pieces[] = {"0-3", "4-7"}, *halos[] = {"0-4", "3-7"}, *edges[] = {"3", "4"};
    for (int i = 0; i < 2; ++i) {
        log.record("ispace", 2 + i, pieces[i]);
        log.record("sub", 1, i, 2 + i);
    }
    for (int i = 0; i < 2; ++i) {
        log.record("ispace", 4 + i, halos[i]);
        log.record("sub", 2, i, 4 + i);
    }
    for (int i = 0; i < 2; ++i)
        log.record("ispace", 6 + i, edges[i]);
    log.record("fields", 1, 1);
    log.record("tree", 1, 1, 1);
    for (int i = 0; i < 2; ++i)
        log.record("inst", 1 + i, 1, 4 + i, 1, "plain");

    // A fill of the whole, which the mapper carries out in each instance.
    log.record("fill", 1, 1, 1, 1, 0);
    unsigned filled[2], changed[2], copied[2];
    for (int i = 0; i < 2; ++i)
        filled[i] = log.operation({}, "put", 1 + i, 4 + i, 1, 0);
    for (int i = 0; i < 2; ++i) { // the tasks that change the pieces, each mapped to its piece's instance
        log.record("task", 2 + i);
        log.record("req", 2 + i, 1, 2 + i, 1, "rw", "ex");
        log.record("map", 2 + i, 1, 1, 1 + i);
        changed[i] = log.operation({filled[i]}, "run", 2 + i);
    }
    copied[1] = log.operation({filled[1], changed[0]}, "copy", 1, 2, 6, 1);
    copied[0] = log.operation({filled[0], changed[1]}, "copy", 2, 1, 7, 1);
    for (int i = 0; i < 2; ++i) { // the tasks that read the pieces with their halos
        log.record("task", 4 + i);
        log.record("req", 4 + i, 1, 4 + i, 1, "ro", "ex");
        log.record("map", 4 + i, 1, 1, 1 + i);
        log.operation({changed[i], copied[i]}, "run", 4 + i);
    }
    log.write(std::cout);
}
