// The rows of running sequences. The rows of a sequence are in the order of their addresses, so a
// sweep over the addresses merges the sequences and need not sort the rows.
#ifndef SEQUENCES_HPP
#define SEQUENCES_HPP
#include "bits.hpp"
extern "C" {
#include "object.h"
}

static uint64_t calls; // on the sets of active sequences and scopes

// The sequences that run at the current address of a sweep. Each has one current row.
class Sequences {
    struct Running {
        uint64_t next; // the address at which the current row ends
        uint32_t sequence, row;
    };

    std::vector<uint32_t> order;   // all sequences, by their start addresses
    std::vector<uint32_t> current; // the current row of each running sequence
    std::vector<Running> heap;     // the running sequences, with the least `next` first
    Bits active{sequence_count};   // the running sequences
    uint64_t first = Bits::none;   // the first running sequence in file order
    size_t started = 0;            // the number of sequences that run or have ended

public:
    Sequences() : order(sequence_count), current(sequence_count) {
        for (uint32_t i = 0; i < sequence_count; i++) order[i] = i;
        std::stable_sort(order.begin(), order.end(), [](uint32_t a, uint32_t b) {
            return sequences[a].start < sequences[b].start;
        });
    }

    bool are_done() const { return started == order.size() && heap.empty(); }

    // Returns the next address at which a row starts or ends, or 2^64-1 if there is none.
    uint64_t next() const {
        uint64_t at = heap.empty() ? ~0ull : heap.front().next;
        return started < order.size() ? std::min(at, sequences[order[started]].start) : at;
    }

    // Ends and starts the rows that end or start at the next address. Returns whether any do.
    bool move_to(uint64_t at) {
        size_t before = started;
        bool has_moved = !heap.empty() && heap.front().next == at;
        while (!heap.empty() && heap.front().next == at) advance();
        while (started < order.size() && sequences[order[started]].start == at)
            start(order[started++]);
        return has_moved || started > before;
    }

    // Returns the first active row in file order.
    uint32_t row() const { return first == Bits::none ? nothing : current[first]; }

private:
    // Returns the first row from an index on that covers an address or ends its sequence.
    static uint32_t skip_empty(uint32_t row) {
        while (!is_end(&rows.items[row]) && rows.items[row].address == rows.items[row + 1].address)
            row++;
        return row;
    }

    void set_row(Running &running, uint32_t row) {
        running.row = current[running.sequence] = row;
        running.next = rows.items[row + 1].address;
    }

    void start(uint32_t sequence) {
        heap.push_back({0, sequence, 0});
        set_row(heap.back(), skip_empty(sequences[sequence].first_row));
        lift(heap.size() - 1);
        active.insert(sequence);
        first = active.first(0);
        calls += 2;
    }

    // Moves the first sequence of the heap to its next row, or ends it.
    void advance() {
        Running &running = heap.front();
        uint32_t row = skip_empty(running.row + 1);
        if (is_end(&rows.items[row])) {
            active.remove(running.sequence);
            first = active.first(0);
            calls += 2;
            running = heap.back();
            heap.pop_back();
        } else
            set_row(running, row);
        settle();
    }

    // Moves the last sequence of the heap up to its position.
    void lift(size_t at) {
        for (; at && heap[at].next < heap[(at - 1) / 2].next; at = (at - 1) / 2)
            std::swap(heap[at], heap[(at - 1) / 2]);
    }

    // Moves the first sequence of the heap down to its position.
    void settle() {
        for (size_t at = 0, child = 1; child < heap.size(); child = at * 2 + 1) {
            if (child + 1 < heap.size() && heap[child + 1].next < heap[child].next) child++;
            if (heap[at].next <= heap[child].next) return;
            std::swap(heap[at], heap[child]);
            at = child;
        }
    }
};
#endif
